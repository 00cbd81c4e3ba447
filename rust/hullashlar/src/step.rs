//! Steps: the knot and the sample that a point steps to.

use crate::asked::at_one;
use crate::axes::Axes;
use crate::declared::{
    hullashlar_exact_index, hullashlar_locate_axis, hullashlar_locate_step_index,
    hullashlar_stepped,
};
use crate::refusal::{outcome, Refusal};

/// The index of the knot that equals the point, of that at the lower index and the next.
///
/// Refuses by 2 (points), 6 (place), 7 (number), 8 (knots).
///
/// ```
/// use hullashlar::exact_index;
///
/// assert_eq!(exact_index(&[0.0, 1.0, 2.0], 1, 2.0), Ok(Some(2)));
/// assert_eq!(exact_index(&[0.0, 1.0, 2.0], 1, 1.5), Ok(None));
/// ```
#[inline]
#[rustfmt::skip]
pub fn exact_index(knots: &[f64], lower: usize, point: f64) -> Result<Option<usize>, Refusal> {
    let mut found = [0; 2];
    // SAFETY: each pointer goes with the length of a live slice, and no two slices overlap.
    let refusal = unsafe {
        hullashlar_exact_index(
            knots.len(),
            knots.as_ptr(), knots.len(),
            lower,
            point,
            found.as_mut_ptr(), found.len(),
        )
    };
    outcome(refusal, (found[0] == 1).then_some(found[1]))
}

/// Where a point lies among knots.
///
/// ```
/// use hullashlar::{locate_axis, Location};
///
/// assert_eq!(locate_axis(&[0.0, 1.0, 3.0], 1.5), Ok(Location::Between { lower: 1, frac: 0.25 }));
/// ```
#[derive(Debug, Clone, Copy, PartialEq)]
pub enum Location {
    /// On the knot of this index.
    Exact(usize),
    /// Beside the lower knot of its cell, at a fraction of the cell's width.
    Between {
        /// The index of the lower knot.
        lower: usize,
        /// The fraction, below 0 or above 1 beyond the knots.
        frac: f64,
    },
}

/// Where a point lies: on a knot, or between two at a fraction.
///
/// Refuses by 2 (points), 7 (number), 8 (knots), and 10 (outcome) for an infinite fraction.
///
/// ```
/// use hullashlar::{locate_axis, Location};
///
/// assert_eq!(locate_axis(&[0.0, 1.0, 3.0], 3.0), Ok(Location::Exact(2)));
/// ```
#[inline]
#[rustfmt::skip]
pub fn locate_axis(knots: &[f64], point: f64) -> Result<Location, Refusal> {
    let (mut location, mut fraction) = ([0; 2], [0.0]);
    // SAFETY: each pointer goes with the length of a live slice, and no two slices overlap.
    let refusal = unsafe {
        hullashlar_locate_axis(
            knots.len(),
            knots.as_ptr(), knots.len(),
            point,
            location.as_mut_ptr(), location.len(),
            fraction.as_mut_ptr(), fraction.len(),
        )
    };
    let [between, index] = location;
    let found = if between == 0 {
        Location::Exact(index)
    } else {
        Location::Between { lower: index, frac: fraction[0] }
    };
    outcome(refusal, found)
}

/// The index of the knot that a point steps to; [`direction`](crate::direction) has the directions.
///
/// Above all knots downward gives the last but one, and below all knots upward gives index 1.
/// Refuses by 2 (points), 22 (mode), 7 (number), 8 (knots).
///
/// ```
/// use hullashlar::{direction, locate_step_index};
///
/// let knots = [0.0, 1.0, 2.0];
/// assert_eq!(locate_step_index(&knots, direction::LOWER, 1.5), Ok(1));
/// assert_eq!(locate_step_index(&knots, direction::UPPER, 1.5), Ok(2));
/// ```
#[inline]
#[rustfmt::skip]
pub fn locate_step_index(knots: &[f64], direction: u8, point: f64) -> Result<usize, Refusal> {
    let mut index = [0];
    // SAFETY: each pointer goes with the length of a live slice, and no two slices overlap.
    let refusal = unsafe {
        hullashlar_locate_step_index(
            knots.len(),
            knots.as_ptr(), knots.len(),
            direction,
            point,
            index.as_mut_ptr(), index.len(),
        )
    };
    outcome(refusal, index[0])
}

/// The sample at the place that the coordinates step to, each axis in its own direction, and the
/// indices of that place.
///
/// Knots and samples have the lengths that the axes say, and there is a coordinate for each axis.
/// Refuses by 1 (axes), 2 (points), 3 (tensor), 4 (length), 22 (mode), 7 (number), 8 (knots).
///
/// ```
/// use hullashlar::{direction, stepped, Axes};
///
/// let axes = Axes { count: 1, points: [3, 0, 0, 0], ..Axes::default() };
/// let answer = stepped(&axes, [direction::LOWER; 4], &[0.0, 1.0, 2.0], &[5.0, 6.0, 7.0], &[1.5]);
/// assert_eq!(answer, Ok((6.0, [1, 0, 0, 0])));
/// ```
#[inline]
pub fn stepped(
    axes: &Axes,
    directions: [u8; 4],
    knots: &[f64],
    samples: &[f64],
    coordinates: &[f64],
) -> Result<(f64, [usize; 4]), Refusal> {
    at_one(
        hullashlar_stepped,
        axes,
        &directions,
        knots,
        samples,
        coordinates,
    )
}
