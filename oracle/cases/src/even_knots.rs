//! Knots that are even, or that are not by little: at the tolerance of the profile and around it.

use crate::grid::Grid;
use crate::numbers::{ordinary, power_of_two};
use crate::random::Random;

/// Gives most axes of a grid even knots, or nearly even ones.
pub fn make_even(random: &mut Random, grid: &mut Grid) {
    let mut rest = grid.knots.as_mut_slice();
    for count in &grid.points[..grid.axes] {
        let (knots, behind) = rest.split_at_mut(*count);
        if random.percent(96) {
            let mut even = even(random, *count);
            if *count > 2 && random.percent(16) {
                bend(random, &mut even);
            }
            if rise(&even) {
                knots.copy_from_slice(&even);
            }
        }
        rest = behind;
    }
}

/// Whether every knot is above the one before by a finite step.
fn rise(knots: &[f64]) -> bool {
    let mut steps = knots.windows(2);
    steps.all(|pair| pair[0] < pair[1] && (pair[1] - pair[0]).is_finite())
}

/// A first knot, and so many steps of one length, by sums or by products; the knots are
/// rounded, so that their differences are not all one number.
fn even(random: &mut Random, count: usize) -> Vec<f64> {
    let step = step(random);
    let first = match random.below(6) {
        0 => 0.0,
        1 => -0.0,
        2 => -step * (count / 2) as f64,
        3 => step * ordinary(random),
        _ => ordinary(random),
    };
    if random.percent(50) {
        return (0..count).map(|at| first + at as f64 * step).collect();
    }
    let mut knots = vec![first];
    for at in 1..count {
        knots.push(knots[at - 1] + step);
    }
    knots
}

/// Steps as axes have them, steep ones, and tiny ones, whose products with a unit of the format
/// are rounded.
fn step(random: &mut Random) -> f64 {
    let quarters = random.between(1, 12) as f64 / 4.0;
    let digits = 0.01 + ordinary(random).abs();
    let power = random.between(0, 80) as i32 - 40;
    match random.below(18) {
        0..=1 => power_of_two(random.between(0, 12) as i32 - 1034),
        2..=3 => digits * power_of_two(random.between(0, 60) as i32 - 1060),
        4 => digits * 1e300,
        5 => digits * power_of_two(1012),
        6..=7 => power_of_two(power),
        8..=10 => 1.0,
        11..=13 => quarters,
        _ => digits,
    }
}

/// Makes an interval differ from the first one by the tolerance, or by some units of its upper
/// knot more or less. The knots behind it stay, or go on from there by even steps.
fn bend(random: &mut Random, knots: &mut [f64]) {
    let step = knots[1] - knots[0];
    let tolerance = step.abs() * power_of_two(-42);
    let upper = random.between(2, knots.len() - 1);
    let off = random.pick(&[
        tolerance,
        -tolerance,
        tolerance / 2.0,
        2.0 * tolerance,
        step / 4.0,
    ]);
    let mut knot = knots[upper - 1] + (step + off);
    for _ in 0..random.below(3) {
        knot = knot.next_up();
    }
    for _ in 0..random.below(3) {
        knot = knot.next_down();
    }
    let goes_on = random.percent(50);
    knots[upper] = knot;
    for at in upper + 1..knots.len() {
        if goes_on {
            knots[at] = knots[at - 1] + step;
        }
    }
}

/// A point so far above the first knot that its distance in steps does not fit into a whole
/// number, or just does.
pub fn far(random: &mut Random, knots: &[f64]) -> Option<f64> {
    let step = knots[1] - knots[0];
    let limit = 18_446_744_073_709_551_616.0f64;
    let quotient = random.pick(&[limit, limit.next_down(), limit.next_up(), 1e30]);
    let point = knots[0] + quotient * step;
    point.is_finite().then_some(point)
}
