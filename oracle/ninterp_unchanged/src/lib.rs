//! Three files of ninterp, compiled as they are given, with a public name for
//! each function that the oracle calls.

mod strategy;

pub use ndarray::{ArrayD, ArrayView1, ArrayViewD, IxDyn};
pub use strategy::cubic::{CubicC2BoundaryConditions, CubicC2Endpoint};
pub use strategy::grid::{
    exact_index, locate_axis, locate_lower_index, locate_lower_index_uniform, locate_step_index,
    validate_uniform_grid_epsilon, AxisLocation,
};
pub use strategy::{Broadcastable, InterpolateError, StepDirection, ValidateError};

use strategy::cubic;

/// Solves rows with three diagonals.
pub fn thomas(below: &[f64], diagonal: &[f64], above: &[f64], right_side: &[f64]) -> Vec<f64> {
    cubic::thomas(below, diagonal, above, right_side)
}

/// Solves rows with three diagonals and the same number in two corners.
pub fn cyclic_thomas(
    below: &[f64],
    diagonal: &[f64],
    above: &[f64],
    right_side: &[f64],
    corner: f64,
) -> Vec<f64> {
    cubic::cyclic_thomas(below, diagonal, above, right_side, corner)
}

/// The moments of a curve.
pub fn compute_m(
    knots: &[f64],
    samples: &[f64],
    condition: &CubicC2BoundaryConditions<f64>,
) -> Vec<f64> {
    cubic::compute_m(knots.into(), samples.into(), condition)
}

/// The curve's value at a point.
pub fn evaluate_spline_from_m(knots: &[f64], samples: &[f64], moments: &[f64], point: f64) -> f64 {
    cubic::evaluate_spline_from_m(knots.into(), samples.into(), moments.into(), point)
}

/// The curve's slope at every knot.
pub fn knot_derivatives_from_m(knots: &[f64], samples: &[f64], moments: &[f64]) -> Vec<f64> {
    cubic::knot_derivatives_from_m(knots.into(), samples.into(), moments.into())
}

/// An error where a condition wants more points than there are.
pub fn validate_bc_min_points(
    condition: &CubicC2BoundaryConditions<f64>,
    points: usize,
    axis: usize,
) -> Result<(), ValidateError> {
    cubic::validate_bc_min_points(condition, points, axis)
}

/// The tensor of samples on a grid.
pub fn compute_corner_cache(
    knots: &[ArrayView1<f64>],
    samples: ArrayViewD<f64>,
    conditions: &Broadcastable<CubicC2BoundaryConditions<f64>>,
) -> ArrayD<f64> {
    cubic::compute_corner_cache(knots, samples, conditions)
}

/// The value of a tensor at a point.
pub fn evaluate_spline_corner_cached(
    knots: &[ArrayView1<f64>],
    tensor: ArrayViewD<f64>,
    point: &[f64],
) -> f64 {
    cubic::evaluate_spline_corner_cached(knots, tensor, point)
}

/// The given files and their compiled copies, by name, for the test that compares them.
pub fn given_and_compiled() -> Vec<(&'static str, &'static [u8], &'static [u8])> {
    macro_rules! both {
        ($file:literal) => {
            (
                $file,
                include_bytes!(concat!(env!("NINTERP_GIVEN"), "/", $file)).as_slice(),
                include_bytes!(concat!(env!("OUT_DIR"), "/", $file)).as_slice(),
            )
        };
    }
    vec![
        both!("src/strategy/cubic/mod.rs"),
        both!("src/strategy/cubic/utils.rs"),
        both!("src/strategy/utils.rs"),
    ]
}
