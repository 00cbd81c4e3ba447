//! Tensors, and the queries at a point.

use crate::grids::{bits, even, grid, uneven, Grid};
use hullashlar::{
    build, change, direct_query, even_profile, even_query, mode, query, quick_query, verify,
    Refusal, Stale,
};

const POINT: [f64; 2] = [0.7, 55.0];

#[test]
fn a_change_gives_the_bits_of_a_build() {
    let mut grid = even();
    let (mut scratch, mut fresh) = (grid.scratch(), grid.tensor.clone());
    let Grid {
        axes,
        knots,
        samples,
        tensor,
    } = &mut grid;
    let lanes = change(axes, knots, tensor, &mut scratch, [2, 1, 0, 0], -3.5);
    // One along axis 0, and along axis 1 one of samples and four of derivatives along axis 0.
    assert_eq!(lanes, Ok(6));
    samples[2 * 3 + 1] = -3.5;
    build(axes, knots, samples, &mut fresh, &mut scratch).expect("the samples are accepted");
    assert_eq!(bits(tensor), bits(&fresh));
    assert_eq!(verify(axes, knots, tensor, &mut scratch), Ok(None));
}

#[test]
fn a_change_is_refused_and_the_tensor_kept() {
    let mut grid = even();
    let (mut scratch, kept) = (grid.scratch(), grid.tensor.clone());
    let Grid {
        axes,
        knots,
        tensor,
        ..
    } = &mut grid;
    let beyond = change(axes, knots, tensor, &mut scratch, [4, 0, 0, 0], 1.0);
    assert_eq!(beyond, Err(Refusal::Place));
    let infinite = change(axes, knots, tensor, &mut scratch, [0; 4], f64::INFINITY);
    assert_eq!(infinite, Err(Refusal::Number));
    assert_eq!(bits(tensor), bits(&kept));
}

#[test]
fn a_stale_number_is_found() {
    let mut grid = even();
    let mut scratch = grid.scratch();
    grid.tensor[(3 + 2) * 4 + 2] += 1.0;
    let stale = verify(&grid.axes, &grid.knots, &grid.tensor, &mut scratch);
    let first = Stale {
        place: [1, 2, 0, 0],
        mask: 2,
        numbers: 1,
    };
    assert_eq!(stale, Ok(Some(first)));
    grid.tensor[0] = f64::NAN;
    let refused = verify(&grid.axes, &grid.knots, &grid.tensor, &mut scratch);
    assert_eq!(refused, Err(Refusal::Number));
}

#[test]
fn measured_points_are_read() {
    let Grid {
        axes,
        knots,
        samples,
        tensor,
    } = uneven();
    for (number, sample) in samples.iter().enumerate() {
        let place = [knots[number / 3], knots[4 + number % 3]];
        for ask in [query, quick_query, direct_query] {
            let (value, _) = ask(&axes, &knots, &tensor, &place).expect("a knot is accepted");
            assert_eq!(value, *sample);
        }
    }
}

#[test]
fn all_queries_agree_on_even_axes() {
    let Grid {
        axes,
        knots,
        tensor,
        ..
    } = even();
    let answer = query(&axes, &knots, &tensor, &POINT);
    assert_eq!(answer.map(|(_, cell)| cell), Ok([1, 0, 0, 0]));
    assert_eq!(even_profile(&axes, &knots), Ok(()));
    assert_eq!(quick_query(&axes, &knots, &tensor, &POINT), answer);
    assert_eq!(direct_query(&axes, &knots, &tensor, &POINT), answer);
    let even = even_query(&axes, &knots, &tensor, &POINT);
    assert_eq!(even.map_err(|(refusal, _)| refusal), answer);
}

#[test]
fn uneven_axes_are_told() {
    let Grid {
        axes,
        knots,
        tensor,
        ..
    } = uneven();
    let told = Err((Refusal::Uneven, [0, 2]));
    assert_eq!(even_profile(&axes, &knots), told.map(|_: ()| ()));
    assert_eq!(
        even_query(&axes, &knots, &tensor, &POINT),
        Err((Refusal::Uneven, [0, 2]))
    );
    let mut falling = knots.clone();
    falling[5] = 40.0;
    assert_eq!(even_profile(&axes, &falling), Err((Refusal::Knots, [1, 0])));
    falling[6] = f64::NAN;
    assert_eq!(
        even_profile(&axes, &falling),
        Err((Refusal::Number, [1, 2]))
    );
}

#[test]
fn modes_decide_outside() {
    let mut line = grid(&[&[0.0, 1.0, 2.0]], |place| 3.0 * place[0]);
    let expected = [
        (mode::EXTEND, Ok(9.0)),
        (mode::HOLD, Ok(6.0)),
        (mode::REFUSE, Err(Refusal::Outside)),
        (3, Err(Refusal::Mode)),
    ];
    for (chosen, wanted) in expected {
        line.axes.modes[0] = chosen;
        for ask in [query, quick_query, direct_query] {
            let seen = ask(&line.axes, &line.knots, &line.tensor, &[3.0]);
            assert_eq!(seen.map(|(value, _)| value), wanted);
        }
    }
}

#[test]
fn grids_are_refused() {
    let Grid {
        mut axes,
        knots,
        tensor,
        ..
    } = even();
    let asked = |axes: &_, point: &[f64]| query(axes, &knots, &tensor, point).unwrap_err();
    assert_eq!(asked(&axes, &[0.5]), Refusal::Length);
    assert_eq!(asked(&axes, &[0.5, f64::NAN]), Refusal::Number);
    axes.points[0] = 1000;
    assert_eq!(asked(&axes, &POINT), Refusal::Points);
    axes.points[..2].fill(200);
    assert_eq!(asked(&axes, &POINT), Refusal::Tensor);
    axes.count = 5;
    assert_eq!(asked(&axes, &POINT), Refusal::Axes);
}
