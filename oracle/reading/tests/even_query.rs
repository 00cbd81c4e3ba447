//! The query in the profile of even axes.

use reading::{even_query, query, EXTEND, HOLD, REFUSE};

/// The refusal, the bits of the value, the labels, and the axis and the interval of 21.
type Whole = (usize, u64, [usize; 4], [usize; 2]);

fn asked(modes: [u8; 4], knots: &[&[f64]], tensor: &[f64], point: &[f64]) -> Whole {
    let mut points = [0; 4];
    for (count, knots) in points.iter_mut().zip(knots) {
        *count = knots.len();
    }
    let (mut value, mut labels, mut uneven) = ([777.0], [9; 4], [9; 2]);
    let refusal = even_query(
        knots.len(),
        &points,
        &modes,
        &knots.concat(),
        tensor,
        point,
        &mut value,
        &mut labels,
        &mut uneven,
    );
    (refusal, value[0].to_bits(), labels, uneven)
}

/// A tensor on one axis whose neighbouring cells are different cubics.
fn bent(points: usize) -> Vec<f64> {
    (0..2 * points).map(|at| (at * at % 7) as f64).collect()
}

fn on_a_line(mode: u8, knots: &[f64], point: f64) -> Whole {
    asked([mode, 9, 9, 9], &[knots], &bent(knots.len()), &[point])
}

fn cell(knots: &[f64], point: f64) -> usize {
    let (refusal, _, labels, uneven) = on_a_line(EXTEND, knots, point);
    assert_eq!((refusal, uneven), (0, [0; 2]), "{point}");
    labels[0]
}

fn searched_cell(knots: &[f64], point: f64) -> usize {
    ninterp_unchanged::locate_lower_index(knots.into(), &point)
}

fn refused(number: usize) -> Whole {
    (number, 0, [0; 4], [0; 2])
}

fn uneven(axis: usize, interval: usize) -> Whole {
    (21, 0, [0; 4], [axis, interval])
}

/// The whole answer of the full query in extend, with nothing uneven.
fn full(knots: &[f64], point: f64) -> Whole {
    let (mut value, mut labels) = ([777.0], [9; 4]);
    let refusal = query(
        1,
        &[knots.len(), 0, 0, 0],
        &[EXTEND; 4],
        knots,
        &bent(knots.len()),
        &[point],
        &mut value,
        &mut labels,
    );
    (refusal, value[0].to_bits(), labels, [0; 2])
}

const KNOTS: [f64; 4] = [0.0, 1.0, 2.0, 3.0];

#[test]
fn where_the_cells_agree_it_is_the_query() {
    for point in [-2.0, -0.0, 0.0, 0.25, 1.5, 2.999, 3.0, 7.0, f64::NAN] {
        assert_eq!(on_a_line(EXTEND, &KNOTS, point), full(&KNOTS, point));
    }
}

/// The comment calls the two locates equivalent.
#[test]
fn at_an_interior_knot_the_cell_is_the_one_above() {
    let knots = [0.0, 1.0, 2.0];
    assert_eq!((cell(&knots, 1.0), searched_cell(&knots, 1.0)), (1, 0));
    assert_eq!((cell(&knots, 0.0), searched_cell(&knots, 0.0)), (0, 0));
    assert_eq!((cell(&knots, 2.0), searched_cell(&knots, 2.0)), (1, 1));
    assert_eq!(cell(&knots, 1.0f64.next_down()), 0);
}

/// What does not fit into a whole number is taken for none.
#[test]
fn a_quotient_of_two_to_the_64_gives_the_first_cell() {
    let (knots, limit) = ([0.0, 1.0, 2.0], 18_446_744_073_709_551_616.0f64);
    assert_eq!((cell(&knots, limit), searched_cell(&knots, limit)), (0, 1));
    assert_eq!(cell(&knots, limit.next_down()), 1);
    let close = [0.0, 5e-324, 1e-323];
    assert_eq!(searched_cell(&close, 1.0), 1);
    // The quotient is infinite, and so is the fraction of the cell.
    assert_eq!(on_a_line(EXTEND, &close, 1.0), refused(10));
    assert_eq!(on_a_line(HOLD, &close, 1.0).2, [1, 0, 0, 0]);
}

#[test]
fn the_lowest_axis_and_its_first_interval_are_told() {
    assert_eq!(on_a_line(EXTEND, &[0.0, 1.0, 3.0, 7.0], 0.5), uneven(0, 1));
    assert_eq!(on_a_line(EXTEND, &[0.0, 1.0, 2.0, 2.5], 0.5), uneven(0, 2));
    let (even, one, two): ([f64; 2], [f64; 3], [f64; 4]) =
        ([0.0, 9.0], [0.0, 1.0, 2.5], [0.0, 1.0, 2.0, 4.0]);
    let at = |knots: [&[f64]; 3]| asked([EXTEND; 4], &knots, &[0.0; 192], &[0.5; 3]);
    assert_eq!(at([&even, &one, &two]), uneven(1, 1));
    assert_eq!(at([&even, &two, &one]), uneven(1, 2));
    assert_eq!(at([&two, &even, &one]), uneven(0, 2));
}

#[test]
fn two_points_are_always_even() {
    for knots in [[0.0, 5e-324], [-1e300, 7e307], [3.0, 3.5]] {
        let (refusal, ..) = on_a_line(HOLD, &knots, knots[0]);
        assert_eq!(refusal, 0);
    }
}

/// With a step of one the tolerance is 2^-42.
#[test]
fn the_tolerance_is_1024_units_of_the_step() {
    let tolerance = 2f64.powi(-42);
    let last_even = 2.0 + tolerance;
    assert_eq!(on_a_line(EXTEND, &[0.0, 1.0, last_even], 0.5).0, 0);
    let next = [0.0, 1.0, last_even.next_up()];
    assert_eq!(on_a_line(EXTEND, &next, 0.5), uneven(0, 1));
    let last_even = 2.0 - tolerance;
    assert_eq!(on_a_line(EXTEND, &[0.0, 1.0, last_even], 0.5).0, 0);
    let next = [0.0, 1.0, last_even.next_down()];
    assert_eq!(on_a_line(EXTEND, &next, 0.5), uneven(0, 1));
}

/// The unit is doubled before it is multiplied by the step: the other way round the product
/// would be zero, and these knots uneven.
#[test]
fn the_doublings_come_first() {
    // The step is 2^-1030 and the tolerance 2^-1072, four times the least number of the format.
    let (step, tolerance) = (f64::from_bits(1 << 44), f64::from_bits(4));
    assert_eq!(step * f64::EPSILON, 0.0);
    let knots = [0.0, step, 2.0 * step + tolerance];
    assert_eq!(on_a_line(EXTEND, &knots, step / 2.0).0, 0);
    let next = [0.0, step, knots[2].next_up()];
    assert_eq!(on_a_line(EXTEND, &next, step / 2.0), uneven(0, 1));
}

#[test]
fn refused_after_the_knots_and_before_a_point_outside() {
    assert_eq!(on_a_line(REFUSE, &[0.0, 1.0, 3.0], 9.0), uneven(0, 1));
    assert_eq!(on_a_line(REFUSE, &KNOTS, 9.0), refused(18));
    assert_eq!(on_a_line(REFUSE, &[0.0, 1.0, 1.0], 9.0), refused(8));
    assert_eq!(on_a_line(REFUSE, &[0.0, 1.0, f64::NAN], 9.0), refused(7));
    assert_eq!(on_a_line(3, &[0.0, 1.0, 3.0], f64::NAN), refused(22));
    // Over all axes before a point outside on any.
    let (even, odd): ([f64; 3], [f64; 3]) = ([0.0, 1.0, 2.0], [0.0, 1.0, 3.0]);
    let modes = [REFUSE, EXTEND, 9, 9];
    let at = |knots: [&[f64]; 2]| asked(modes, &knots, &[0.0; 36], &[9.0, 0.5]);
    assert_eq!(at([&even, &odd]), uneven(1, 1));
    assert_eq!(at([&even, &even]), refused(18));
}

/// A point so far above that its own cell would be the first.
#[test]
fn hold_replaces_before_the_cell_is_found() {
    let held = on_a_line(HOLD, &KNOTS, 1e300);
    assert_eq!(held, on_a_line(EXTEND, &KNOTS, 3.0));
    assert_eq!(held.2, [2, 0, 0, 0]);
    assert_eq!(on_a_line(EXTEND, &KNOTS, 1e300).0, 10);
}

/// A query at a measured point gives its sample, but not here.
#[test]
fn the_last_knot_can_be_out_of_reach() {
    let knots = [-1e308, 0.0, 1e308];
    assert_eq!(on_a_line(EXTEND, &knots, 1e308), refused(10));
    assert_eq!(full(&knots, 1e308).0, 0);
}

#[test]
fn slots_have_their_lengths() {
    let knots = [0.0, 1.0, 3.0];
    for length in [0, 1, 3] {
        let (mut value, mut labels, mut uneven) = ([777.0], [9; 4], vec![9; length]);
        let refusal = even_query(
            1,
            &[3, 0, 0, 0],
            &[EXTEND; 4],
            &knots,
            &bent(3),
            &[0.5],
            &mut value,
            &mut labels,
            &mut uneven,
        );
        assert_eq!((refusal, value, labels), (4, [777.0], [9; 4]));
        assert_eq!(uneven, vec![9; length]);
    }
}
