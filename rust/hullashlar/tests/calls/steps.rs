//! Steps on an axis and on a grid.

use crate::grids::{even, Grid};
use hullashlar::{
    direction, exact_index, locate_axis, locate_step_index, stepped, Location, Refusal,
};

const KNOTS: [f64; 4] = [0.0, 1.0, 3.0, 4.0];

#[test]
fn a_knot_is_known() {
    assert_eq!(exact_index(&KNOTS, 1, 1.0), Ok(Some(1)));
    assert_eq!(exact_index(&KNOTS, 1, 3.0), Ok(Some(2)));
    assert_eq!(exact_index(&KNOTS, 1, 0.0), Ok(None));
    assert_eq!(exact_index(&KNOTS, 3, 4.0), Err(Refusal::Place));
}

#[test]
fn a_point_is_located() {
    assert_eq!(locate_axis(&KNOTS, 3.0), Ok(Location::Exact(2)));
    let between = |lower, frac| Ok(Location::Between { lower, frac });
    assert_eq!(locate_axis(&KNOTS, 1.5), between(1, 0.25));
    assert_eq!(locate_axis(&KNOTS, -0.5), between(0, -0.5));
    assert_eq!(locate_axis(&KNOTS, 5.0), between(2, 2.0));
    assert_eq!(locate_axis(&KNOTS, f64::NAN), Err(Refusal::Number));
    assert_eq!(
        locate_axis(&[0.0, f64::MIN_POSITIVE], f64::MAX),
        Err(Refusal::Outcome)
    );
}

#[test]
fn a_point_steps() {
    let step = |direction, point| locate_step_index(&KNOTS, direction, point);
    assert_eq!(step(direction::LOWER, 1.5), Ok(1));
    assert_eq!(step(direction::UPPER, 1.5), Ok(2));
    assert_eq!(step(direction::LOWER, 3.0), Ok(2));
    assert_eq!(step(direction::UPPER, 3.0), Ok(2));
    assert_eq!(step(direction::LOWER, 9.0), Ok(2));
    assert_eq!(step(direction::UPPER, -9.0), Ok(1));
    assert_eq!(step(2, 1.5), Err(Refusal::Mode));
}

#[test]
fn a_surface_is_stepped() {
    let Grid {
        axes,
        knots,
        samples,
        ..
    } = even();
    let directions = [direction::LOWER, direction::UPPER, 9, 9];
    let answer = stepped(&axes, directions, &knots, &samples, &[0.7, 55.0]);
    assert_eq!(answer, Ok((samples[3 + 1], [1, 1, 0, 0])));
    let refused = stepped(&axes, directions, &knots, &samples[1..], &[0.7, 55.0]);
    assert_eq!(refused, Err(Refusal::Length));
}
