//! What becomes of a coordinate outside the knots of its axis.

use crate::refusals::{require, Refusal};

/// The coordinate stands, beyond the knots too.
pub const EXTEND: u8 = 0;
/// The nearest end knot stands for a coordinate outside.
pub const HOLD: u8 = 1;
/// A coordinate outside is refused.
pub const REFUSE: u8 = 2;

/// On which side of an axis's knots a point lies.
enum Side {
    Below,
    Inside,
    Above,
}

/// Below the first knot, else above the last, else inside: so an end knot is.
fn side(knots: &[f64], point: f64) -> Side {
    if point < knots[0] {
        Side::Below
    } else if point > knots[knots.len() - 1] {
        Side::Above
    } else {
        Side::Inside
    }
}

/// 22: a mode that there is not, among the numbers of a call or in the bits of a sheet.
pub fn modes_stand(modes: &[u8]) -> Result<(), Refusal> {
    let known = |mode: &u8| matches!(*mode, EXTEND | HOLD | REFUSE);
    require(modes.iter().all(known), 22)
}

/// The coordinates that are evaluated: in hold the nearest end knot stands for one outside. 18
/// for one outside in refuse.
pub fn evaluated(
    modes: &[u8],
    knots_by_axis: &[&[f64]],
    coordinates: &[f64],
) -> Result<Vec<f64>, Refusal> {
    let axes = modes.iter().zip(knots_by_axis).zip(coordinates);
    axes.map(|((mode, knots), point)| evaluated_on(*mode, knots, *point))
        .collect()
}

/// The point, or outside the knots the nearest end knot.
pub fn held(knots: &[f64], point: f64) -> f64 {
    match side(knots, point) {
        Side::Below => knots[0],
        Side::Inside => point,
        Side::Above => knots[knots.len() - 1],
    }
}

fn evaluated_on(mode: u8, knots: &[f64], point: f64) -> Result<f64, Refusal> {
    match (mode, side(knots, point)) {
        (_, Side::Inside) | (EXTEND, _) => Ok(point),
        (HOLD, _) => Ok(held(knots, point)),
        _ => Err(18),
    }
}
