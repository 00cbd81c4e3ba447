//! The calls on one axis: moments, curve and slopes.

use crate::ends::{condition, enough_points, kinds_stand, values_finite, Condition};
use crate::refusals::{
    all_finite, clear_after_work, knots_rise, points_in_range, require, Refusal, CURVE_SCRATCH,
};
use ninterp_unchanged::{compute_m, evaluate_spline_from_m, knot_derivatives_from_m};

/// The moments of a curve.
pub fn moments(
    points: usize,
    knots: &[f64],
    samples: &[f64],
    kinds: &[u8],
    values: &[f64],
    moments: &mut [f64],
    scratch: &mut [f64],
) -> Refusal {
    let lengths = [knots.len(), samples.len(), moments.len()];
    let solved = check_lengths(points, &lengths)
        .and_then(|()| require(kinds.len() == 2 && values.len() == 2, 4))
        .and_then(|()| kinds_stand(kinds))
        .and_then(|()| require(scratch.len() >= CURVE_SCRATCH, 5))
        .and_then(|()| require(values_finite(kinds, values), 7))
        .and_then(|()| check_numbers(knots, samples))
        .and_then(|()| solve(knots, samples, &condition(kinds, values)));
    let refusal = store_when_solved(solved, moments);
    clear_after_work(scratch, refusal);
    refusal
}

/// The curve's value at a point, beyond the knots too.
pub fn curve(
    points: usize,
    knots: &[f64],
    samples: &[f64],
    moments: &[f64],
    point: f64,
    value: &mut [f64],
) -> Refusal {
    let lengths = [knots.len(), samples.len(), moments.len()];
    let answer = check_lengths(points, &lengths)
        .and_then(|()| require(value.len() == 1, 4))
        .and_then(|()| require(point.is_finite(), 7))
        .and_then(|()| check_numbers(knots, samples))
        .map(|()| evaluate_spline_from_m(knots, samples, moments, point))
        .and_then(|answer| require(answer.is_finite(), 10).map(|()| answer));
    if let [value] = value {
        *value = answer.unwrap_or(0.0);
    }
    answer.err().unwrap_or(0)
}

/// The curve's slope at every knot.
pub fn slopes(
    points: usize,
    knots: &[f64],
    samples: &[f64],
    moments: &[f64],
    slopes: &mut [f64],
) -> Refusal {
    let lengths = [knots.len(), samples.len(), moments.len(), slopes.len()];
    let found = check_lengths(points, &lengths)
        .and_then(|()| check_numbers(knots, samples))
        .map(|()| knot_derivatives_from_m(knots, samples, moments))
        .and_then(|found| require(all_finite(&found), 10).map(|()| found));
    store_when_solved(found, slopes)
}

/// 2 and 4.
fn check_lengths(points: usize, lengths: &[usize]) -> Result<(), Refusal> {
    require(points_in_range(points), 2)?;
    require(lengths.iter().all(|length| *length == points), 4)
}

/// 7 and 8 for knots and samples.
fn check_numbers(knots: &[f64], samples: &[f64]) -> Result<(), Refusal> {
    require(all_finite(knots) && all_finite(samples), 7)?;
    require(knots_rise(knots), 8)
}

/// 9, the moments, and 10.
fn solve(knots: &[f64], samples: &[f64], condition: &Condition) -> Result<Vec<f64>, Refusal> {
    let one_axis = std::slice::from_ref(condition);
    require(enough_points(one_axis, &[knots.len()]), 9)?;
    let moments = compute_m(knots, samples, condition);
    require(all_finite(&moments), 10)?;
    Ok(moments)
}

fn store_when_solved(solved: Result<Vec<f64>, Refusal>, output: &mut [f64]) -> Refusal {
    match solved {
        Ok(numbers) => {
            output.copy_from_slice(&numbers);
            0
        }
        Err(refusal) => refusal,
    }
}
