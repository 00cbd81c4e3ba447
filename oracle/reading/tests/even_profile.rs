//! The call that looks at knots once, for direct queries.

use reading::{direct_query, even_profile, even_query, EXTEND, HOLD, REFUSE};

/// The refusal, and the axis with its knot or interval.
fn profile(knots: &[&[f64]]) -> (usize, [usize; 2]) {
    let mut told = [9; 2];
    let refusal = even_profile(knots.len(), &points(knots), &knots.concat(), &mut told);
    (refusal, told)
}

fn points(knots: &[&[f64]]) -> [usize; 4] {
    let mut points = [0; 4];
    for (count, knots) in points.iter_mut().zip(knots) {
        *count = knots.len();
    }
    points
}

const EVEN: &[f64] = &[0.0, 1.0, 2.0, 3.0];
const UNEVEN: &[f64] = &[0.0, 1.0, 2.0, 4.0];

#[test]
fn even_axes_are_accepted_and_nothing_is_told() {
    assert_eq!(profile(&[EVEN]), (0, [0, 0]));
    assert_eq!(profile(&[EVEN, &[-0.0, 0.1], EVEN]), (0, [0, 0]));
}

#[test]
fn the_lowest_axis_and_its_first_place_are_told() {
    assert_eq!(profile(&[EVEN, UNEVEN]), (21, [1, 2]));
    assert_eq!(profile(&[EVEN, &[0.0, 1.0, 1.0, 0.0]]), (8, [1, 1]));
    let wide = [-f64::MAX, 0.0, 1.0, f64::MAX];
    assert_eq!(profile(&[&wide]), (21, [0, 1]));
    assert_eq!(profile(&[EVEN, &[-f64::MAX, f64::MAX]]), (8, [1, 0]));
    assert_eq!(
        profile(&[&[0.0, f64::NAN], &[f64::INFINITY, 1.0]]),
        (7, [0, 1])
    );
    assert_eq!(profile(&[EVEN, &[f64::INFINITY, 1.0]]), (7, [1, 0]));
}

/// Each number is looked for on every axis before the next, so a later axis can be told before a lower one.
#[test]
fn the_order_of_the_numbers_comes_before_that_of_the_axes() {
    assert_eq!(profile(&[UNEVEN, &[1.0, 0.0]]), (8, [1, 0]));
    assert_eq!(profile(&[&[1.0, 0.0], &[0.0, 1.0, f64::NAN]]), (7, [1, 2]));
}

#[test]
fn sizes_and_lengths_come_first_and_a_slot_of_another_length_is_left() {
    let mut told = [9; 2];
    assert_eq!(even_profile(0, &[4; 3], &[], &mut told), 1);
    assert_eq!(
        (even_profile(1, &[4; 3], EVEN, &mut told), told),
        (4, [0; 2])
    );
    assert_eq!(even_profile(1, &[1, 0, 0, 0], EVEN, &mut told), 2);
    assert_eq!(even_profile(3, &[256; 4], EVEN, &mut told), 3);
    assert_eq!(even_profile(1, &[3, 0, 0, 0], EVEN, &mut told), 4);
    let mut other = [9; 3];
    assert_eq!(even_profile(1, &[4, 0, 0, 0], EVEN, &mut other), 4);
    assert_eq!(other, [9; 3]);
}

#[test]
fn where_nothing_is_refused_a_direct_query_is_one_of_even_axes() {
    let tensor: Vec<f64> = (0..8).map(|at| (at * at % 7) as f64).collect();
    for mode in [EXTEND, HOLD, REFUSE] {
        for point in [-1.0, 0.0, 0.5, 2.0, 2.75, 3.0, 9.0, f64::NAN] {
            let modes = [mode, 9, 9, 9];
            let (mut value, mut labels, mut uneven) = ([7.0], [9; 4], [9; 2]);
            let even = even_query(
                1,
                &[4, 0, 0, 0],
                &modes,
                EVEN,
                &tensor,
                &[point],
                &mut value,
                &mut labels,
                &mut uneven,
            );
            let (mut direct_value, mut direct_labels) = ([7.0], [9; 4]);
            let direct = direct_query(
                1,
                &[4, 0, 0, 0],
                &modes,
                EVEN,
                &tensor,
                &[point],
                &mut direct_value,
                &mut direct_labels,
            );
            assert_eq!((even, value, labels), (direct, direct_value, direct_labels));
        }
    }
}
