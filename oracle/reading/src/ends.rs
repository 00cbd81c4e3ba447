//! End kinds as numbers, and the conditions of ninterp that they stand for.

use crate::refusals::{require, Refusal};
use ninterp_unchanged::{validate_bc_min_points, CubicC2BoundaryConditions, CubicC2Endpoint};

/// The condition of an axis in ninterp's words.
pub type Condition = CubicC2BoundaryConditions<f64>;
type Endpoint = CubicC2Endpoint<f64>;

/// The kind that must stand at both ends of an axis.
pub const PERIODIC: u8 = 3;

/// Whether a kind comes with a number.
pub fn has_value(kind: u8) -> bool {
    matches!(kind, 1 | 2)
}

/// 13 for the host's calls: a kind that there is not, or Periodic at one end only.
pub fn kinds_stand(kinds: &[u8]) -> Result<(), Refusal> {
    let stands = |pair: &[u8]| {
        let known = pair.iter().all(|kind| *kind <= PERIODIC);
        known && (pair[0] == PERIODIC) == (pair[1] == PERIODIC)
    };
    require(kinds.chunks(2).all(stands), 13)
}

/// 7 for end values: only those of a kind that has one are looked at.
pub fn values_finite(kinds: &[u8], values: &[f64]) -> bool {
    let mut ends = kinds.iter().zip(values);
    ends.all(|(kind, value)| !has_value(*kind) || value.is_finite())
}

/// The condition of one axis from its two kinds and values.
pub fn condition(kinds: &[u8], values: &[f64]) -> Condition {
    if kinds[0] == PERIODIC {
        return Condition::Periodic;
    }
    Condition::Endpoints {
        lower: endpoint(kinds[0], values[0]),
        upper: endpoint(kinds[1], values[1]),
    }
}

fn endpoint(kind: u8, value: f64) -> Endpoint {
    match kind {
        1 => Endpoint::FirstDerivative(value),
        2 => Endpoint::SecondDerivative(value),
        _ => Endpoint::NotAKnot,
    }
}

/// The conditions of every axis.
pub fn conditions(kinds: &[u8], values: &[f64]) -> Vec<Condition> {
    let axes = kinds.chunks(2).zip(values.chunks(2));
    axes.map(|(kinds, values)| condition(kinds, values))
        .collect()
}

/// The condition with +0.0 for its numbers, which a spline through derivatives takes.
pub fn homogeneous(condition: &Condition) -> Condition {
    let without_value = |end: &Endpoint| match end {
        Endpoint::FirstDerivative(_) => Endpoint::FirstDerivative(0.0),
        Endpoint::SecondDerivative(_) => Endpoint::SecondDerivative(0.0),
        Endpoint::NotAKnot => Endpoint::NotAKnot,
    };
    match condition {
        Condition::Endpoints { lower, upper } => Condition::Endpoints {
            lower: without_value(lower),
            upper: without_value(upper),
        },
        Condition::Periodic => Condition::Periodic,
    }
}

/// 9: every axis has the points that its condition wants.
pub fn enough_points(conditions: &[Condition], points: &[usize]) -> bool {
    let mut axes = conditions.iter().zip(points).enumerate();
    axes.all(|(axis, (condition, points))| validate_bc_min_points(condition, *points, axis).is_ok())
}
