//! The call that looks at knots once, so that they can be asked directly.

use crate::even::first_uneven;
use crate::refusals::{all_finite, knots_rise, require, Refusal};
use crate::shape::Shape;

/// An axis, and a knot or an interval of it.
type Place = [usize; 2];

/// Whether the query of even axes refuses neither knots nor axes: 1, 4 for points that are not four, 2, 3, 4 for the
/// slot and the knots, 7 for a knot, 8, 21. After 7, 8 and 21 the slot of two tells the lowest axis that is refused, and
/// its first knot or interval that is; after any other answer zeros.
pub fn even_profile(axes: usize, points: &[usize], knots: &[f64], told: &mut [usize]) -> Refusal {
    let slot_stands = told.len() == 2;
    let (refusal, place) = match checked(axes, points, knots, slot_stands) {
        Ok(knots_by_axis) => looked_at(&knots_by_axis),
        Err(refusal) => (refusal, Place::default()),
    };
    if slot_stands {
        told.copy_from_slice(&place);
    }
    refusal
}

/// 1 to 4, and the knots of each axis.
fn checked<'a>(
    axes: usize,
    points: &[usize],
    knots: &'a [f64],
    slot_stands: bool,
) -> Result<Vec<&'a [f64]>, Refusal> {
    let shape = Shape::checked(axes, points)?;
    require(slot_stands, 4)?;
    require(knots.len() == shape.knots_length(), 4)?;
    Ok(shape.knots_by_axis(knots))
}

/// 7, 8, 21 or 0: each is looked for on all axes before the next.
fn looked_at(knots_by_axis: &[&[f64]]) -> (Refusal, Place) {
    let not_finite = |knots: &[f64]| knots.iter().position(|knot| !all_finite(&[*knot]));
    let not_rising = |knots: &[f64]| knots.windows(2).position(|pair| !knots_rise(pair));
    let refused = [
        (7, first(knots_by_axis, not_finite)),
        (8, first(knots_by_axis, not_rising)),
        (21, first_uneven(knots_by_axis)),
    ];
    let mut met = refused.into_iter();
    let met = met.find_map(|(refusal, place)| place.map(|place| (refusal, place)));
    met.unwrap_or_default()
}

/// The lowest axis on which something is found, and where.
fn first(knots_by_axis: &[&[f64]], found: fn(&[f64]) -> Option<usize>) -> Option<Place> {
    let mut axes = knots_by_axis.iter().enumerate();
    axes.find_map(|(axis, knots)| found(knots).map(|place| [axis, place]))
}
