//! The inputs of docs/DIFFERENCES.md, on which the Rust's code does another thing
//! than its comments say. The code decides.

use ninterp_unchanged::*;
use std::cell::Cell;
use std::cmp::Ordering;

type Condition = CubicC2BoundaryConditions<f64>;

/// The curve through samples at a point.
fn curve_at(knots: &[f64], samples: &[f64], condition: &Condition, point: f64) -> f64 {
    let moments = compute_m(knots, samples, condition);
    evaluate_spline_from_m(knots, samples, &moments, point)
}

/// The slopes at the knots of the curve through samples.
fn slopes(knots: &[f64], samples: &[f64], condition: &Condition) -> Vec<f64> {
    let moments = compute_m(knots, samples, condition);
    knot_derivatives_from_m(knots, samples, &moments)
}

/// How many floats of one sign lie between two of them, the second one counted.
fn floats_apart(a: f64, b: f64) -> u64 {
    assert_eq!(a.is_sign_negative(), b.is_sign_negative());
    a.to_bits().abs_diff(b.to_bits())
}

/// The cell of a point on an even axis by direct arithmetic, and by the search.
fn both_cells(knots: &[f64], point: f64) -> (usize, usize) {
    assert!(validate_uniform_grid_epsilon(knots.into(), 0, None).is_ok());
    let step = knots[1] - knots[0];
    (
        locate_lower_index_uniform(knots[0], step, knots.len(), point),
        locate_lower_index(knots.into(), &point),
    )
}

/// The comment has the knot's own index.
#[test]
fn an_interior_knot_lies_in_the_cell_before_it() {
    let knots = [0.0, 1.0, 2.0];
    assert_eq!(locate_lower_index(knots.as_slice().into(), &1.0), 0);
}

/// The comment holds every point to the cells.
#[test]
fn a_point_that_is_no_number_lies_past_the_last_cell() {
    let knots = [0.0, 1.0];
    assert_eq!(locate_lower_index(knots.as_slice().into(), &f64::NAN), 1);
}

/// The comment calls the direct locate equivalent to the search.
#[test]
fn an_interior_knot_lies_in_another_cell_by_direct_arithmetic() {
    assert_eq!(both_cells(&[0.0, 1.0, 2.0], 1.0), (1, 0));
}

/// The same comment: a quotient that is rounded down leaves a knot in the cell before it.
#[test]
fn an_interior_knot_lies_in_either_direct_cell_beside_it() {
    let knots = [0.1, 0.2, 0.3, 0.4];
    assert_eq!(both_cells(&knots, knots[1]), (1, 0));
    assert_eq!(both_cells(&knots, knots[2]), (1, 1));
    let from_zero = [0.0, 0.1, 0.2, 0.3, 0.4];
    assert_eq!(both_cells(&from_zero, from_zero[2]), (2, 1));
    assert_eq!(both_cells(&from_zero, from_zero[3]), (2, 2));
}

/// The same comment: close below a knot a quotient is rounded up to it, and close above it down.
#[test]
fn a_point_between_two_knots_lies_in_another_direct_cell() {
    assert_eq!(both_cells(&[-1.0, 0.0, 1.0], -1e-17), (1, 0));
    assert_eq!(both_cells(&[-1.0, 1e-17, 1.0], 0.0), (1, 0));
    let knots = [-0.2, -0.15, -0.1, -0.05];
    assert_eq!(both_cells(&knots, knots[2].next_up()), (1, 2));
}

/// What does not fit into a whole number is taken for zero, as far above the knots as it is.
#[test]
fn a_quotient_that_does_not_fit_gives_the_first_cell() {
    let direct = |point: f64| locate_lower_index_uniform(0.0, 1.0, 3, point);
    let limit = 18_446_744_073_709_551_616.0f64;
    assert_eq!([direct(limit.next_down()), direct(limit)], [1, 0]);
    assert_eq!([direct(f64::INFINITY), direct(f64::NAN)], [0, 0]);
    let knots = [0.0, 1.0, 2.0];
    assert_eq!(locate_lower_index(knots.as_slice().into(), &limit), 1);
}

/// The same comment as of the interior knot, at a knot whose difference from the first overflows.
#[test]
fn the_last_knot_of_a_wide_even_axis_lies_in_the_first_direct_cell() {
    let knots = [-1e308, 0.0, 1e308];
    assert_eq!(both_cells(&knots, knots[2]), (0, 1));
    assert_eq!((knots[2] - knots[0]) / (knots[1] - knots[0]), f64::INFINITY);
}

/// The comment has the curve pass through its samples exactly.
#[test]
fn a_periodic_curve_misses_a_sample() {
    let (knots, samples) = ([0.0, 1.0, 2.0], [-1.0, 3.0, 0.0]);
    let value = curve_at(&knots, &samples, &Condition::Periodic, 0.0);
    assert_eq!(value, -0.9999999999999996);
    assert_eq!(floats_apart(value, -1.0), 4);
}

/// The branch for one unknown, which a periodic axis of one interval never reaches.
#[test]
fn one_unknown_has_a_branch_of_its_own() {
    assert_eq!(
        cyclic_thomas(&[], &[2.0], &[], &[4.0], 1.0),
        [4.0 / (2.0 + 1.0 + 1.0)]
    );
}

/// The rows of one interval whose slope overflows: the branch would give a NaN where
/// the moments are zero.
#[test]
fn one_periodic_interval_takes_zero_moments_first() {
    let (knots, samples) = ([0.0, 5e-324], [0.0, 1.0]);
    let step: f64 = knots[1] - knots[0];
    let slope: f64 = (samples[1] - samples[0]) / step;
    let solved = cyclic_thomas(
        &[],
        &[2.0 * (step + step)],
        &[],
        &[6.0 * (slope - slope)],
        step,
    );
    assert!(solved[0].is_nan());
    let moments = compute_m(&knots, &samples, &Condition::Periodic);
    let patterns: Vec<u64> = moments.into_iter().map(f64::to_bits).collect();
    assert_eq!(patterns, [0, 0]);
}

#[test]
fn a_clamped_curve_misses_a_sample() {
    let (knots, samples) = ([0.0, 1.0], [1.0, 0.0]);
    let condition = Condition::first_derivative(0.0, 1.0);
    let value = curve_at(&knots, &samples, &condition, 0.0);
    assert_eq!(value, 0.9999999999999998);
    assert_eq!(floats_apart(value, 1.0), 2);
}

#[test]
fn a_natural_curve_misses_a_sample() {
    let (knots, samples) = ([0.0, 1.0, 2.0, 3.0], [0.0, 1.0, 0.0, 1.0]);
    let condition = Condition::second_derivative(0.0, 0.0);
    let value = curve_at(&knots, &samples, &condition, 1.0);
    assert_eq!(value, 0.9999999999999999);
    assert_eq!(floats_apart(value, 1.0), 1);
}

/// The comment has one slope for both ends of a period.
#[test]
fn a_periodic_curve_has_two_slopes_at_its_seam() {
    let (knots, samples) = ([0.0, 1.0, 2.0], [-1.0, 3.0, 0.0]);
    let slopes = slopes(&knots, &samples, &Condition::Periodic);
    let seam = (slopes[0], slopes[2]);
    assert_eq!(seam, (0.5000000000000013, 0.49999999999999867));
    assert_eq!(floats_apart(seam.0, seam.1), 36);
}

/// The comment has the given slope at the end.
#[test]
fn a_clamped_end_has_another_slope() {
    let (knots, samples) = ([0.0, 1.0, 2.0], [0.0, 1.0, 0.0]);
    let slopes = slopes(&knots, &samples, &Condition::first_derivative(0.0, 0.0));
    assert_eq!((slopes[0], slopes[2]), (0.0, -3.3306690738754696e-16));
}

/// The comment has the given second derivative at the end.
#[test]
fn a_second_derivative_of_minus_zero_loses_its_sign_at_the_upper_end() {
    let (knots, samples) = ([0.0, 1.0], [0.0, 0.0]);
    let condition = Condition::second_derivative(-0.0, -0.0);
    let moments = compute_m(&knots, &samples, &condition);
    assert_eq!(moments[0].to_bits(), (-0.0f64).to_bits());
    assert_eq!(moments[1].to_bits(), 0.0f64.to_bits());
}

/// The comment has every edge case handled, and that a cell's upper knot would pass over the first.
#[test]
fn a_step_upward_from_below_all_knots_passes_over_the_first() {
    let knots = [0.0, 1.0];
    let index = locate_step_index(StepDirection::Upper, knots.as_slice().into(), &-1.0);
    assert_eq!(index, 1);
}

#[test]
fn a_step_downward_from_above_all_knots_passes_over_the_last() {
    let knots = [0.0, 1.0];
    let index = locate_step_index(StepDirection::Lower, knots.as_slice().into(), &2.0);
    assert_eq!(index, 0);
}

/// The comment has the fraction in [0, 1).
#[test]
fn a_fraction_lies_beyond_its_range() {
    let fraction = |knots: [f64; 2], point: f64| match locate_axis(knots.as_slice().into(), &point)
    {
        AxisLocation::Between { lower: 0, frac } => frac,
        _ => panic!("the point lies in the one cell and on no knot"),
    };
    assert_eq!(fraction([0.0, 1.0], -1.0), -1.0);
    assert_eq!(fraction([-1.0, 2e-17], 1e-17), 1.0);
    assert_eq!(fraction([0.0, 5e-324], 1e308), f64::INFINITY);
}

#[test]
#[should_panic]
fn a_lower_index_with_no_knot_after_it_stops_the_program() {
    let knots = [0.0, 1.0];
    exact_index(knots.as_slice().into(), 1, &2.0);
}

/// The comment has any spline reproduce a line; this one has the slope 0 at both ends.
#[test]
fn a_clamped_curve_does_not_reproduce_a_line() {
    let (knots, samples) = ([0.0, 1.0], [0.0, 1.0]);
    let condition = Condition::first_derivative(0.0, 0.0);
    assert_eq!(curve_at(&knots, &samples, &condition, 0.25), 0.15625);
}

/// The comment has the default tolerance absorb the rounding of evenly built knots.
#[test]
fn knots_that_only_rounding_makes_uneven_are_not_even() {
    let knots = [256.0, 256.1, 256.2];
    let judged = validate_uniform_grid_epsilon(knots.as_slice().into(), 0, None);
    assert_eq!(judged, Err(ValidateError::NonUniform { dim: 0, index: 1 }));
}

/// The tensor of samples on two axes, with one condition for both: four entries to a place.
fn tensor_of(knots: [&[f64]; 2], samples: Vec<f64>, condition: &Condition) -> Vec<f64> {
    let shape = IxDyn(&[knots[0].len(), knots[1].len()]);
    let samples = ArrayD::from_shape_vec(shape, samples).expect("a sample for each place");
    let conditions = Broadcastable::Broadcast(condition.clone());
    let knots = knots.map(|axis| axis.into());
    let tensor = compute_corner_cache(&knots, samples.view(), &conditions);
    tensor.iter().copied().collect()
}

/// The comment has the fraction in [0, 1]; beyond the knots it is what it is, and extends the cubic.
#[test]
fn a_blend_takes_a_fraction_beyond_one() {
    let knots = [0.0, 1.0];
    let tensor = vec![0.0, 1.0, 1.0, 1.0];
    let tensor = ArrayD::from_shape_vec(IxDyn(&[2, 2]), tensor).expect("two entries to a place");
    let value = |point: f64| {
        evaluate_spline_corner_cached(&[knots.as_slice().into()], tensor.view(), &[point])
    };
    assert_eq!([value(2.0), value(-1.0)], [2.0, -1.0]);
}

/// The comment has a pass for every mask without the axis's bit. The code takes the masks of the axes
/// below: the mixed derivative is the slope along the second axis of the slopes along the first.
#[test]
fn a_mixed_derivative_is_splined_along_its_last_axis() {
    let (first, second) = ([0.0, 1.0], [0.0, 1.0, 2.0]);
    let samples = vec![0.0, 1.0, 0.0, 1.0, 0.0, 0.0];
    let condition = Condition::first_derivative(0.0, 0.0);
    let tensor = tensor_of([&first, &second], samples, &condition);
    let entry = |i: usize, j: usize, mask: usize| tensor[(i * 3 + j) * 4 + mask];
    let along_first: Vec<f64> = (0..3).map(|j| entry(0, j, 1)).collect();
    let along_second: Vec<f64> = (0..2).map(|i| entry(i, 1, 2)).collect();
    assert_eq!(entry(0, 1, 3), 0.0);
    assert_eq!(slopes(&second, &along_first, &condition)[1], 0.0);
    assert_eq!(
        slopes(&first, &along_second, &condition)[0],
        1.1102230246251565e-16
    );
}

thread_local! {
    static COMPARISONS: Cell<usize> = const { Cell::new(0) };
}

/// A number that counts how often one is compared.
#[derive(Clone, Copy, PartialEq)]
struct Counted(f64);

impl PartialOrd for Counted {
    fn partial_cmp(&self, other: &Self) -> Option<Ordering> {
        COMPARISONS.set(COMPARISONS.get() + 1);
        self.0.partial_cmp(&other.0)
    }
}

/// How many comparisons a search makes for a point just above the first of so many knots.
fn comparisons_among(points: usize) -> usize {
    let knots: Vec<Counted> = (0..points).map(|i| Counted(i as f64)).collect();
    COMPARISONS.set(0);
    assert_eq!(
        locate_lower_index(knots.as_slice().into(), &Counted(0.5)),
        0
    );
    COMPARISONS.get()
}

/// The comment has a query in constant time; each one searches its axes.
#[test]
fn a_query_looks_at_more_knots_where_there_are_more() {
    assert_eq!([comparisons_among(2), comparisons_among(256)], [4, 11]);
}

/// The comment has two rows at least guaranteed; one point passes the check, and has one row.
#[test]
fn one_natural_point_has_one_row() {
    let condition = Condition::second_derivative(0.0, 0.0);
    assert_eq!(validate_bc_min_points(&condition, 1, 0), Ok(()));
    assert_eq!(compute_m(&[0.0], &[5.0], &condition), [0.0]);
}
