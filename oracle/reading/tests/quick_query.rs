//! The quick query: the cell of the unchanged search on any knots, and nothing else looked at.

use reading::{query, quick_query, EXTEND};

/// A query, full or quick.
type Query = fn(usize, &[usize], &[u8], &[f64], &[f64], &[f64], &mut [f64], &mut [usize]) -> usize;

/// The refusal, the bits of the value, and the labels.
type Whole = (usize, u64, [usize; 4]);

fn asked(query: Query, knots: &[&[f64]], tensor: &[f64], coordinates: &[f64]) -> Whole {
    let mut points = [0; 4];
    for (count, knots) in points.iter_mut().zip(knots) {
        *count = knots.len();
    }
    let (mut value, mut labels) = ([777.0], [9; 4]);
    let refusal = query(
        knots.len(),
        &points,
        &[EXTEND; 4],
        &knots.concat(),
        tensor,
        coordinates,
        &mut value,
        &mut labels,
    );
    (refusal, value[0].to_bits(), labels)
}

/// A straight line of slope one over knots: each value is its knot.
fn straight(knots: &[f64]) -> Vec<f64> {
    knots.iter().flat_map(|knot| [*knot, 1.0]).collect()
}

fn quick(knots: &[f64], point: f64) -> Whole {
    asked(quick_query, &[knots], &straight(knots), &[point])
}

fn accepted(value: f64, label: usize) -> Whole {
    (0, value.to_bits(), [label, 0, 0, 0])
}

fn refused(number: usize) -> Whole {
    (number, 0, [0; 4])
}

#[test]
fn on_knots_that_the_full_query_accepts_the_answers_are_equal() {
    let knots = [0.0, 1.0, 2.0, 4.0];
    for point in [-1.0, -0.0, 0.0, 0.5, 1.0, 1.5, 2.0, 3.0, 4.0, 9.0, f64::NAN] {
        let full = asked(query, &[&knots], &straight(&knots), &[point]);
        assert_eq!(quick(&knots, point), full, "{point}");
    }
}

#[test]
fn the_label_is_the_cell_that_was_evaluated() {
    let knots = [0.0, 1.0, 2.0];
    assert_eq!(quick(&knots, 1.0), accepted(1.0, 0));
    assert_eq!(quick(&knots, 2.0), accepted(2.0, 1));
    assert_eq!(quick(&knots, -1.0), accepted(-1.0, 0));
}

/// A scan for the first knot above the point would stop in cell 0.
#[test]
fn on_knots_that_fall_the_search_goes_by_halves() {
    let knots = [0.0, 5.0, 1.0, 2.0, 10.0];
    assert_eq!(quick(&knots, 3.0), accepted(3.0, 3));
    assert_eq!(
        asked(query, &[&knots], &straight(&knots), &[3.0]),
        refused(8)
    );
    let (refusal, _, labels) = quick(&[0.0, 5.0, 1.0, 2.0, 9.0], 3.0);
    assert_eq!((refusal, labels), (0, [3, 0, 0, 0]));
}

#[test]
fn knots_off_the_path_are_not_looked_at() {
    for other in [f64::NAN, f64::INFINITY, f64::NEG_INFINITY, -7.0, 2.0] {
        // Of six knots the search for 2.5 looks at the first, the last, 2, 4 and 3.
        let knots = [0.0, other, 2.0, 3.0, 4.0, 5.0];
        assert_eq!(quick(&knots, 2.5), accepted(2.5, 2), "{other}");
        let (refusal, ..) = asked(query, &[&knots], &straight(&knots), &[2.5]);
        assert_eq!(refusal, if other.is_finite() { 8 } else { 7 });
    }
}

#[test]
fn a_cell_is_refused_by_its_own_two_knots() {
    assert_eq!(quick(&[1.0, 1.0], 1.0), refused(8));
    assert_eq!(quick(&[0.0, -0.0], 0.0), refused(8));
    assert_eq!(quick(&[1.0, 0.0], 0.5), refused(8));
    assert_eq!(quick(&[-1e308, 1e308], 0.0), refused(8));
    assert_eq!(quick(&[f64::NAN, 1.0], 0.5), refused(8));
    assert_eq!(quick(&[0.0, f64::INFINITY], 0.5), refused(8));
    assert_eq!(quick(&[f64::NEG_INFINITY, 0.0], -0.5), refused(8));
}

/// With a last knot that is no number the search ends past the last cell, and is held to it.
#[test]
fn the_index_is_held_to_the_last_cell() {
    let knots = [0.0, 1.0, f64::NAN];
    let index = ninterp_unchanged::locate_lower_index(knots.as_slice().into(), &1.5);
    assert_eq!(index, 2);
    assert_eq!(quick(&knots, 1.5), refused(8));
}

#[test]
fn a_coordinate_is_refused_before_the_knots() {
    for point in [f64::NAN, f64::INFINITY, f64::NEG_INFINITY] {
        assert_eq!(quick(&[f64::NAN, 0.0], point), refused(7));
    }
    let (bad, good): ([f64; 2], [f64; 2]) = ([1.0, 0.0], [0.0, 1.0]);
    let on_two =
        |coordinates: [f64; 2]| asked(quick_query, &[&bad, &good], &[0.0; 16], &coordinates);
    assert_eq!(on_two([0.5, f64::NAN]), refused(7));
    assert_eq!(on_two([0.5, 0.5]), refused(8));
}

#[test]
fn the_outcome_is_looked_at_last() {
    let infinite = [f64::INFINITY; 4];
    assert_eq!(
        asked(quick_query, &[&[0.0, 1.0]], &infinite, &[0.5]),
        refused(10)
    );
    assert_eq!(
        asked(quick_query, &[&[1.0, 0.0]], &infinite, &[0.5]),
        refused(8)
    );
}

/// Only the corners of the cell are read of a tensor.
#[test]
fn numbers_beside_the_cell_are_not_read() {
    let knots = [0.0, 1.0, 2.0, 3.0];
    let mut tensor = straight(&knots);
    tensor[0] = f64::NAN;
    tensor[7] = f64::INFINITY;
    assert_eq!(
        asked(quick_query, &[&knots], &tensor, &[1.5]),
        accepted(1.5, 1)
    );
}

#[test]
fn lengths_are_refused_as_in_the_full_query() {
    let (knots, tensor) = ([f64::NAN, 0.0], [0.0; 4]);
    for length in [0, 1, 3] {
        let knots = vec![0.0; length];
        let (mut value, mut labels) = ([777.0], [9; 4]);
        let refusal = quick_query(
            1,
            &[2, 0, 0, 0],
            &[EXTEND; 4],
            &knots,
            &tensor,
            &[f64::NAN],
            &mut value,
            &mut labels,
        );
        assert_eq!((refusal, value[0], labels), (4, 0.0, [0; 4]));
    }
    let mut labels = [9; 3];
    let refusal = quick_query(
        1,
        &[2, 0, 0, 0],
        &[EXTEND; 4],
        &knots,
        &tensor,
        &[0.5],
        &mut [777.0],
        &mut labels,
    );
    assert_eq!((refusal, labels), (4, [9; 3]));
    let of_five = quick_query(
        5,
        &[2; 3],
        &[EXTEND; 4],
        &knots,
        &tensor,
        &[0.5],
        &mut [777.0],
        &mut [9; 4],
    );
    assert_eq!(of_five, 1);
}
