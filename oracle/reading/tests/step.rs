//! The calls of steps on knots 0 1 2, and at their corners.

use reading::{exact_index, locate_axis, locate_step_index, stepped};

const KNOTS: [f64; 3] = [0.0, 1.0, 2.0];
const POINTS: [f64; 7] = [-1.0, 0.0, 0.5, 1.0, 1.5, 2.0, 3.0];

/// The index that a point steps to on the knots above.
fn step(direction: u8, point: f64) -> usize {
    let mut index = [9];
    assert_eq!(
        locate_step_index(3, &KNOTS, direction, point, &mut index),
        0
    );
    index[0]
}

/// Where a point lies among knots.
fn location(knots: &[f64], point: f64) -> (usize, usize, f64) {
    let (mut location, mut fraction) = ([9; 2], [9.0]);
    let refusal = locate_axis(knots.len(), knots, point, &mut location, &mut fraction);
    assert_eq!(refusal, 0);
    (location[0], location[1], fraction[0])
}

/// Above the last knot the last but one, which is a corner of the Rust.
#[test]
fn downward() {
    assert_eq!(POINTS.map(|point| step(0, point)), [0, 0, 0, 1, 1, 2, 1]);
}

/// Below the first knot 1, which is the other corner.
#[test]
fn upward() {
    assert_eq!(POINTS.map(|point| step(1, point)), [1, 0, 1, 1, 2, 2, 2]);
}

#[test]
fn on_a_knot_or_between_two() {
    let expected = [
        (1, 0, -1.0),
        (0, 0, 0.0),
        (1, 0, 0.5),
        (0, 1, 0.0),
        (1, 1, 0.5),
        (0, 2, 0.0),
        (1, 1, 2.0),
    ];
    assert_eq!(POINTS.map(|point| location(&KNOTS, point)), expected);
}

/// Zeros of either sign are one knot.
#[test]
fn a_zero_of_the_other_sign_is_on_the_knot() {
    let (kind, index, fraction) = location(&KNOTS, -0.0);
    assert_eq!((kind, index, fraction.to_bits()), (0, 0, 0));
    assert_eq!(step(1, -0.0), 0);
}

#[test]
fn a_fraction_that_overflows_is_refused() {
    let (mut location, mut fraction) = ([9; 2], [9.0]);
    let knots = [0.0, 5e-324];
    assert_eq!(
        locate_axis(2, &knots, 1e308, &mut location, &mut fraction),
        10
    );
    assert_eq!((location, fraction), ([0; 2], [0.0]));
}

#[test]
fn which_of_two_knots() {
    let found = |lower: usize, point: f64| {
        let mut found = [9; 2];
        let refusal = exact_index(3, &KNOTS, lower, point, &mut found);
        (refusal, found)
    };
    assert_eq!(found(0, 0.0), (0, [1, 0]));
    assert_eq!(found(0, 1.0), (0, [1, 1]));
    assert_eq!(found(1, 1.0), (0, [1, 1]));
    assert_eq!(found(0, 2.0), (0, [0, 0]));
    assert_eq!(found(2, 2.0), (6, [0, 0]));
}

/// A direction for each axis: the sample at the corner of the cell that they name.
#[test]
fn a_surface_of_two_axes() {
    let knots = [0.0, 1.0, 10.0, 20.0, 30.0];
    let samples = [0.0, 1.0, 2.0, 3.0, 4.0, 5.0];
    let at = |directions: [u8; 2], coordinates: [f64; 2]| {
        let (mut value, mut indices) = ([9.0], [9; 4]);
        let refusal = stepped(
            2,
            &[2, 3, 0, 257],
            &[directions[0], directions[1], 2, 255],
            &knots,
            &samples,
            &coordinates,
            &mut value,
            &mut indices,
        );
        (refusal, value[0], indices)
    };
    assert_eq!(at([0, 0], [0.5, 25.0]), (0, 1.0, [0, 1, 0, 0]));
    assert_eq!(at([0, 1], [0.5, 25.0]), (0, 2.0, [0, 2, 0, 0]));
    assert_eq!(at([1, 0], [0.5, 25.0]), (0, 4.0, [1, 1, 0, 0]));
    assert_eq!(at([1, 1], [0.5, 25.0]), (0, 5.0, [1, 2, 0, 0]));
    assert_eq!(at([1, 0], [-1.0, 31.0]), (0, 4.0, [1, 1, 0, 0]));
    assert_eq!(at([1, 2], [0.5, 25.0]), (22, 0.0, [0; 4]));
}
