//! Many points by one call: the answers of the call for one.

use crate::grids::{even, uneven, Grid};
use hullashlar::{
    direct_queries, direct_query, direction, quick_queries, quick_query, stepped, stepped_many,
    Axes, Refusal,
};

/// Five points of two axes, one of which is none.
const COORDINATES: [f64; 10] = [0.1, 41.0, 0.7, 55.0, 9.0, 99.0, f64::NAN, 50.0, 1.0, 60.0];

type One = fn(&Axes, &[f64], &[f64], &[f64]) -> Result<(f64, [usize; 4]), Refusal>;

/// The answer of one point as the calls for many write it.
fn written(answer: Result<(f64, [usize; 4]), Refusal>) -> (f64, [usize; 4], usize) {
    match answer {
        Ok((value, labels)) => (value, labels, 0),
        Err(refusal) => (0.0, [0; 4], refusal.number()),
    }
}

fn labels_of(labels: &[usize], number: usize) -> [usize; 4] {
    let own = labels[4 * number..4 * number + 4].try_into();
    own.expect("each point has four")
}

#[test]
fn queries_of_many_points_are_those_of_one() {
    let calls = [
        (
            quick_queries as fn(&_, &_, &_, &_, &mut _, &mut _, &mut _) -> _,
            quick_query as One,
        ),
        (direct_queries, direct_query),
    ];
    for Grid {
        axes,
        knots,
        tensor,
        ..
    } in [even(), uneven()]
    {
        for (many, one) in calls {
            let (mut values, mut labels, mut refusals) = ([7.0; 5], [7; 20], [7; 5]);
            let done: Result<(), Refusal> = many(
                &axes,
                &knots[..],
                &tensor[..],
                &COORDINATES[..],
                &mut values[..],
                &mut labels[..],
                &mut refusals[..],
            );
            assert_eq!(done, Ok(()));
            for (number, point) in COORDINATES.chunks(2).enumerate() {
                let seen = (values[number], labels_of(&labels, number), refusals[number]);
                assert_eq!(seen, written(one(&axes, &knots, &tensor, point)));
            }
            assert_eq!(refusals, [0, 0, 0, 7, 0]);
        }
    }
}

#[test]
fn steps_of_many_points_are_those_of_one() {
    let Grid {
        axes,
        knots,
        samples,
        ..
    } = uneven();
    let directions = [direction::LOWER, direction::UPPER, 0, 0];
    let (mut values, mut indices, mut refusals) = ([7.0; 5], [7; 20], [7; 5]);
    let done = stepped_many(
        &axes,
        directions,
        &knots,
        &samples,
        &COORDINATES,
        &mut values,
        &mut indices,
        &mut refusals,
    );
    assert_eq!(done, Ok(()));
    for (number, point) in COORDINATES.chunks(2).enumerate() {
        let seen = (
            values[number],
            labels_of(&indices, number),
            refusals[number],
        );
        assert_eq!(
            seen,
            written(stepped(&axes, directions, &knots, &samples, point))
        );
    }
    assert_eq!(refusals, [0, 0, 0, 7, 0]);
}

#[test]
fn no_points_are_accepted_and_wrong_lengths_refused() {
    let Grid {
        axes,
        knots,
        tensor,
        samples,
    } = even();
    let none = quick_queries(&axes, &knots, &tensor, &[], &mut [], &mut [], &mut []);
    assert_eq!(none, Ok(()));
    let mut values = [7.0; 5];
    let short = direct_queries(
        &axes,
        &knots,
        &tensor,
        &COORDINATES,
        &mut values,
        &mut [7; 19],
        &mut [7; 5],
    );
    assert_eq!((short, values), (Err(Refusal::Length), [7.0; 5]));
    let none = stepped_many(
        &axes,
        [2; 4],
        &knots,
        &samples,
        &[],
        &mut [],
        &mut [],
        &mut [],
    );
    assert_eq!(none, Err(Refusal::Mode));
}
