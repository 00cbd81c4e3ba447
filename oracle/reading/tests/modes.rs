//! Queries outside the knots: extended, held at the nearest end knot, or refused.

use reading::{query, quick_query, EXTEND, HOLD, REFUSE};

/// The refusal, the bits of the value, and the labels.
type Whole = (usize, u64, [usize; 4]);

/// The answer of the full query, or of the quick one.
fn asked(quick: bool, modes: [u8; 4], knots: &[&[f64]], tensor: &[f64], point: &[f64]) -> Whole {
    let mut points = [0; 4];
    for (count, knots) in points.iter_mut().zip(knots) {
        *count = knots.len();
    }
    let (mut value, mut labels) = ([777.0], [9; 4]);
    let query = if quick { quick_query } else { query };
    let refusal = query(
        knots.len(),
        &points,
        &modes,
        &knots.concat(),
        tensor,
        point,
        &mut value,
        &mut labels,
    );
    (refusal, value[0].to_bits(), labels)
}

/// One axis of three knots with a cubic that is no line: its ends rise by two and fall by one.
const KNOTS: [f64; 3] = [0.0, 1.0, 2.0];
const TENSOR: [f64; 6] = [5.0, 2.0, 6.0, 0.0, 7.0, -1.0];

/// The answer of both queries, which is the same.
fn on_three_knots(mode: u8, point: f64) -> Whole {
    // What stands past the axes in use is not read.
    let modes = [mode, 3, 77, 255];
    let full = asked(false, modes, &[&KNOTS], &TENSOR, &[point]);
    assert_eq!(asked(true, modes, &[&KNOTS], &TENSOR, &[point]), full);
    full
}

fn accepted(value: f64, label: usize) -> Whole {
    (0, value.to_bits(), [label, 0, 0, 0])
}

fn refused(number: usize) -> Whole {
    (number, 0, [0; 4])
}

#[test]
fn extend_goes_on_with_the_boundary_cubic() {
    assert_eq!(on_three_knots(EXTEND, -1.0), accepted(2.0, 0));
    assert_eq!(on_three_knots(EXTEND, 0.0), accepted(5.0, 0));
    assert_eq!(on_three_knots(EXTEND, 2.0), accepted(7.0, 1));
    assert_eq!(on_three_knots(EXTEND, 3.0), accepted(-2.0, 1));
}

#[test]
fn hold_keeps_the_end_knot() {
    assert_eq!(on_three_knots(HOLD, -1.0), accepted(5.0, 0));
    assert_eq!(on_three_knots(HOLD, 0.0), accepted(5.0, 0));
    assert_eq!(on_three_knots(HOLD, 2.0), accepted(7.0, 1));
    assert_eq!(on_three_knots(HOLD, 3.0), accepted(7.0, 1));
}

#[test]
fn refuse_has_18_outside_alone() {
    assert_eq!(on_three_knots(REFUSE, -1.0), refused(18));
    assert_eq!(on_three_knots(REFUSE, 0.0), accepted(5.0, 0));
    assert_eq!(on_three_knots(REFUSE, 2.0), accepted(7.0, 1));
    assert_eq!(on_three_knots(REFUSE, 3.0), refused(18));
}

#[test]
fn the_next_float_outside_is_outside() {
    let (below, above) = (0.0f64.next_down(), 2.0f64.next_up());
    assert_eq!(on_three_knots(REFUSE, below), refused(18));
    assert_eq!(on_three_knots(REFUSE, above), refused(18));
    assert_eq!(on_three_knots(HOLD, below), accepted(5.0, 0));
    assert_eq!(on_three_knots(HOLD, above), accepted(7.0, 1));
    for mode in [EXTEND, HOLD, REFUSE] {
        let (inside, last) = (0.0f64.next_up(), 2.0f64.next_down());
        assert_eq!(on_three_knots(mode, inside), on_three_knots(EXTEND, inside));
        assert_eq!(on_three_knots(mode, last), on_three_knots(EXTEND, last));
    }
}

#[test]
fn a_zero_is_inside_at_a_zero_of_the_other_sign() {
    for (knots, point) in [([0.0, 1.0], -0.0), ([-0.0, 1.0], 0.0), ([-1.0, -0.0], 0.0)] {
        for quick in [false, true] {
            let answer = |mode| asked(quick, [mode; 4], &[&knots], &TENSOR[..4], &[point]);
            assert_eq!(answer(REFUSE).0, 0);
            assert_eq!(answer(HOLD), answer(EXTEND));
            assert_eq!(answer(REFUSE), answer(EXTEND));
        }
    }
}

/// Held on one axis, extended on the other.
#[test]
fn each_axis_has_its_own_mode() {
    let tensor: Vec<f64> = (0..16).map(|at| (at * at) as f64).collect();
    let knots: [&[f64]; 2] = [&[0.0, 1.0], &[0.0, 1.0]];
    for quick in [false, true] {
        let at = |modes, point| asked(quick, modes, &knots, &tensor, point);
        assert_eq!(
            at([HOLD, EXTEND, 9, 9], &[4.0, 3.0]),
            at([EXTEND; 4], &[1.0, 3.0])
        );
        assert_eq!(
            at([EXTEND, HOLD, 9, 9], &[4.0, 3.0]),
            at([EXTEND; 4], &[4.0, 1.0])
        );
        assert_eq!(at([HOLD, REFUSE, 9, 9], &[4.0, 3.0]), refused(18));
    }
}

#[test]
fn refused_after_the_knots_and_before_the_outcome() {
    let (falling, infinite) = ([1.0, 0.0], [f64::INFINITY; 4]);
    for quick in [false, true] {
        let at = |mode, knots: &[f64], tensor: &[f64], point| {
            asked(quick, [mode; 4], &[knots], tensor, &[point])
        };
        assert_eq!(at(REFUSE, &[0.0, 1.0], &infinite, 3.0), refused(18));
        assert_eq!(at(REFUSE, &[0.0, 1.0], &infinite, 1.0), refused(10));
        assert_eq!(at(REFUSE, &falling, &infinite, 3.0), refused(8));
        assert_eq!(at(REFUSE, &[0.0, 1.0], &infinite, f64::NAN), refused(7));
        assert_eq!(at(3, &[f64::NAN, 1.0], &infinite, f64::NAN), refused(22));
    }
}

/// On knots that fall from end to end a point can be below the first and above the last: it
/// is below. The cell of the point as it is given is kept.
#[test]
fn below_is_looked_at_first() {
    let knots = [5.0, 6.0, 1.0, 2.0];
    let tensor = [1.0, 0.0, 2.0, 0.0, 3.0, 0.0, 4.0, 0.0];
    let at = |mode, point| asked(true, [mode; 4], &[&knots], &tensor, &[point]);
    assert_eq!(at(HOLD, 3.0), accepted(1.0, 0));
    assert_eq!(at(REFUSE, 3.0), refused(18));
    assert_eq!(at(HOLD, 9.0), accepted(4.0, 2));
    assert_eq!(at(REFUSE, 5.5), refused(18));
    assert_eq!(at(HOLD, 5.5), accepted(4.0, 2));
}

#[test]
fn modes_have_their_length() {
    for length in [0, 3, 5] {
        let (mut value, mut labels) = ([777.0], [9; 4]);
        let refusal = query(
            1,
            &[2, 0, 0, 0],
            &vec![9; length],
            &[0.0, 1.0],
            &[0.0; 4],
            &[0.5],
            &mut value,
            &mut labels,
        );
        assert_eq!((refusal, value[0], labels), (4, 0.0, [0; 4]));
    }
}
