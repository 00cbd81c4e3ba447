//! The surface that owns its slices.

use crate::grids::{bits, even};
use hullashlar::{direction, kind, Axes, Refusal, Surface};

/// The example sheet of the repository, as it is and after the change of its host.
const GAINS: &[u8] = include_bytes!("../../../../examples/gain.sheet");
const CHANGED: &[u8] = include_bytes!("../../../../examples/changed.sheet");

#[test]
fn a_sheet_is_changed_and_written_back() {
    let mut surface = Surface::of_sheet(GAINS).expect("the sheet is accepted");
    assert_eq!(surface.sheet().as_deref(), Ok(GAINS));
    assert_eq!(surface.change(&[2, 2], 15.0), Ok(7));
    assert_eq!(surface.verify(), Ok(None));
    assert_eq!(surface.sheet().as_deref(), Ok(CHANGED));
    let fresh = Surface::of_sheet(CHANGED).expect("the sheet is accepted");
    assert_eq!(bits(surface.tensor()), bits(fresh.tensor()));
}

#[test]
fn a_built_surface_answers_as_the_calls() {
    let grid = even();
    let surface =
        Surface::build(grid.axes.clone(), &grid.knots, &grid.samples).expect("it is accepted");
    assert_eq!(bits(surface.tensor()), bits(&grid.tensor));
    let answer = surface.query(&[0.7, 55.0]);
    assert_eq!(surface.quick_query(&[0.7, 55.0]), answer);
    assert_eq!(surface.direct_query(&[0.7, 55.0]), answer);
    assert_eq!(surface.even_query(&[0.7, 55.0]).ok(), answer.ok());
    assert_eq!(surface.even_profile(), Ok(()));
    let many = [answer.map(|(value, _)| value), Err(Refusal::Number)];
    let points = [0.7, 55.0, f64::NAN, 0.0];
    assert_eq!(surface.quick_queries(&points).as_deref(), Ok(&many[..]));
    assert_eq!(surface.direct_queries(&points).as_deref(), Ok(&many[..]));
    assert_eq!(surface.quick_queries(&points[1..]), Err(Refusal::Length));
    let stepped = surface.stepped([direction::LOWER; 4], &[0.7, 55.0]);
    assert_eq!(stepped, Ok((grid.samples[3], [1, 0, 0, 0])));
}

#[test]
fn a_change_that_is_refused_changes_nothing() {
    let mut surface = Surface::of_sheet(GAINS).expect("the sheet is accepted");
    let (samples, tensor) = (bits(surface.samples()), bits(surface.tensor()));
    assert_eq!(surface.change(&[5, 0], 1.0), Err(Refusal::Place));
    assert_eq!(surface.change(&[1], 1.0), Err(Refusal::Length));
    assert_eq!(surface.change(&[1, 1, 1, 1, 1], 1.0), Err(Refusal::Length));
    assert_eq!(surface.change(&[1, 1], f64::NAN), Err(Refusal::Number));
    assert_eq!(
        (bits(surface.samples()), bits(surface.tensor())),
        (samples, tensor)
    );
}

#[test]
fn absurd_axes_are_refused() {
    let built = |count, points| {
        let axes = Axes {
            count,
            points,
            kinds: [kind::SECOND_DERIVATIVE; 8],
            ..Axes::default()
        };
        Surface::build(axes, &[], &[]).unwrap_err()
    };
    assert_eq!(built(0, [0; 4]), Refusal::Axes);
    assert_eq!(built(usize::MAX, [usize::MAX; 4]), Refusal::Axes);
    assert_eq!(built(4, [usize::MAX; 4]), Refusal::Points);
    assert_eq!(built(4, [256; 4]), Refusal::Tensor);
    assert_eq!(built(1, [2, 0, 0, 0]), Refusal::Length);
}

#[test]
fn floats_are_ready() {
    assert!(hullashlar::floats_ready());
}
