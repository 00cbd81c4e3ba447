//! Axes whose knots are evenly spaced: what the unchanged files say of them.

use ninterp_unchanged::{locate_lower_index_uniform, validate_uniform_grid_epsilon, ValidateError};

/// The lowest axis that is not even, and its first interval that differs from the first one of
/// all by more than the default tolerance. Both are counted from 0.
pub fn first_uneven(knots_by_axis: &[&[f64]]) -> Option<[usize; 2]> {
    let mut axes = knots_by_axis.iter().enumerate();
    axes.find_map(|(axis, knots)| {
        match validate_uniform_grid_epsilon((*knots).into(), axis, None) {
            Err(ValidateError::NonUniform { dim, index }) => Some([dim, index]),
            Err(other) => panic!("no other fault is known: {other:?}"),
            Ok(()) => None,
        }
    })
}

/// The cell of a point by direct arithmetic, for the step of the first interval.
pub fn direct_cell(knots: &[f64], point: f64) -> usize {
    // The step is a local of the unchanged files, as it is where 8 looks at it.
    let step = knots[1] - knots[0];
    locate_lower_index_uniform(knots[0], step, knots.len(), point)
}
