//! Curves on one axis.

use hullashlar::{curve, kind, moments, slopes, Refusal, SCRATCH};

const KNOTS: [f64; 4] = [0.0, 1.0, 2.0, 3.0];
const SQUARES: [f64; 4] = [0.0, 1.0, 4.0, 9.0];

fn moments_of(kinds: [u8; 2], values: [f64; 2]) -> Result<[f64; 4], Refusal> {
    let (mut answer, mut scratch) = ([7.0; 4], [7.0; SCRATCH]);
    moments(&KNOTS, &SQUARES, kinds, values, &mut answer, &mut scratch)?;
    Ok(answer)
}

#[test]
fn a_parabola_has_moments_of_two() {
    assert_eq!(moments_of([kind::NOT_A_KNOT; 2], [0.0; 2]), Ok([2.0; 4]));
    assert_eq!(
        moments_of([kind::SECOND_DERIVATIVE; 2], [2.0; 2]),
        Ok([2.0; 4])
    );
    assert_eq!(
        moments_of([kind::FIRST_DERIVATIVE; 2], [0.0, 6.0]),
        Ok([2.0; 4])
    );
}

#[test]
fn a_parabola_is_read_between_its_knots_and_beyond() {
    let at = |point| curve(&KNOTS, &SQUARES, &[2.0; 4], point);
    for (knot, square) in KNOTS.into_iter().zip(SQUARES) {
        assert_eq!(at(knot), Ok(square));
    }
    for point in [-1.0, 0.5, 1.5, 4.0] {
        let value = at(point).expect("the point is accepted");
        assert!((value - point * point).abs() < 1e-14, "{value} at {point}");
    }
    let mut answer = [0.0; 4];
    assert_eq!(slopes(&KNOTS, &SQUARES, &[2.0; 4], &mut answer), Ok(()));
    assert_eq!(answer, [0.0, 2.0, 4.0, 6.0]);
}

#[test]
fn curves_are_refused() {
    let kinds = [kind::PERIODIC, kind::NOT_A_KNOT];
    assert_eq!(moments_of(kinds, [0.0; 2]), Err(Refusal::Kinds));
    let kinds = [kind::FIRST_DERIVATIVE; 2];
    assert_eq!(moments_of(kinds, [f64::NAN, 0.0]), Err(Refusal::Number));
    let mut two = [0.0; 2];
    let few = moments(
        &KNOTS[..2],
        &SQUARES[..2],
        [kind::NOT_A_KNOT; 2],
        [0.0; 2],
        &mut two,
        &mut [0.0; SCRATCH],
    );
    assert_eq!(few, Err(Refusal::Fewness));
    let narrow = moments(
        &KNOTS,
        &SQUARES,
        [kind::NOT_A_KNOT; 2],
        [0.0; 2],
        &mut [0.0; 4],
        &mut [0.0; SCRATCH - 1],
    );
    assert_eq!(narrow, Err(Refusal::Scratch));
    assert_eq!(curve(&[0.0], &[0.0], &[0.0], 0.0), Err(Refusal::Points));
    assert_eq!(
        curve(&KNOTS, &SQUARES, &[2.0; 4], 1e200),
        Err(Refusal::Outcome)
    );
    let short = slopes(&KNOTS, &SQUARES, &[2.0; 3], &mut [0.0; 4]);
    assert_eq!(short, Err(Refusal::Length));
}
