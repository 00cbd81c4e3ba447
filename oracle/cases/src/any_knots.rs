//! Knots that a full query refuses: they fall, repeat, are no numbers, or lie too far apart.

use crate::grid::Grid;
use crate::lending::Point;
use crate::numbers::{any_finite, not_finite, ordinary};
use crate::random::Random;

type Disturbance = fn(&mut Random, &mut [f64]);

/// Most often a few knots are off, so that the cell of a point is seldom among them.
const DISTURBANCES: [Disturbance; 10] = [
    some_not_finite,
    some_not_finite,
    some_not_finite,
    one_elsewhere,
    one_elsewhere,
    two_exchanged,
    a_stretch_repeated,
    falling,
    in_no_order,
    too_far_apart,
];

/// Disturbs the knots of some axes, and gives a point there: one of the grid as it was, or one
/// at a disturbed knot or beside it.
pub fn disturb(random: &mut Random, grid: &mut Grid) -> Point {
    let mut point = Point::generate(random, grid);
    let certain = random.below(grid.axes);
    let mut rest = grid.knots.as_mut_slice();
    for axis in 0..grid.axes {
        let (knots, behind) = rest.split_at_mut(grid.points[axis]);
        if axis == certain || random.percent(20) {
            random.pick(&DISTURBANCES)(random, knots);
        }
        if random.percent(30) {
            let coordinate = &mut point.coordinates[axis];
            *coordinate = at_or_beside(random, knots).unwrap_or(*coordinate);
        }
        rest = behind;
    }
    point
}

/// A knot that is a finite number, or its neighbour on either side.
fn at_or_beside(random: &mut Random, knots: &[f64]) -> Option<f64> {
    let knot = random.pick(knots);
    let point = random.pick(&[knot, knot, knot.next_down(), knot.next_up()]);
    point.is_finite().then_some(point)
}

/// Infinities and NaN anywhere, the first and the last knot no less than others.
fn some_not_finite(random: &mut Random, knots: &mut [f64]) {
    for _ in 0..random.pick(&[1, 1, 1, 2, 3]) {
        let any = random.below(knots.len());
        let at = random.pick(&[any, any, any, 0, knots.len() - 1]);
        knots[at] = not_finite(random);
    }
}

/// A knot with any number in its place, or with the zero of another sign beside it.
fn one_elsewhere(random: &mut Random, knots: &mut [f64]) {
    let at = random.below(knots.len());
    let (small, large) = (ordinary(random), any_finite(random));
    knots[at] = random.pick(&[small, large, knots[0], -knots[0], 0.0, -0.0]);
}

fn two_exchanged(random: &mut Random, knots: &mut [f64]) {
    knots.swap(random.below(knots.len()), random.below(knots.len()));
}

/// Knots that are all equal for a while.
fn a_stretch_repeated(random: &mut Random, knots: &mut [f64]) {
    let first = random.below(knots.len() - 1);
    let last = random.between(first + 1, knots.len() - 1);
    let knot = knots[first];
    knots[first..=last].fill(knot);
}

fn falling(_: &mut Random, knots: &mut [f64]) {
    knots.reverse();
}

fn in_no_order(random: &mut Random, knots: &mut [f64]) {
    for last in (1..knots.len()).rev() {
        knots.swap(last, random.below(last + 1));
    }
}

/// Neighbours whose step overflows, now and then all of them.
fn too_far_apart(random: &mut Random, knots: &mut [f64]) {
    let first = random.below(knots.len() - 1);
    let last = random.pick(&[first + 1, knots.len() - 1]);
    for (place, knot) in knots[first..=last].iter_mut().enumerate() {
        *knot = if place % 2 == 0 { -1e308 } else { 1.6e308 };
    }
}
