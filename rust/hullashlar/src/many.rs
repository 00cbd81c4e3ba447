//! Many points by one call.

use crate::asked::{at_many, Given};
use crate::axes::Axes;
use crate::declared::{
    hullashlar_direct_queries, hullashlar_quick_queries, hullashlar_stepped_many,
};
use crate::refusal::Refusal;

/// The quick query at many points, one after the other: a value, four labels and a refusal for
/// each, as many as refusals are lent.
///
/// The coordinates of a point stand after those of the point before it, and so do its labels. A
/// point that is refused stops nothing: its number stands in its place of the refusals, 0 for none,
/// and [`Refusal::of`] names it. Refuses by 1 (axes), 2 (points), 3 (tensor), 4 (length),
/// 22 (mode), and then nothing is written.
///
/// ```
/// use hullashlar::{quick_queries, Axes};
///
/// let axes = Axes { count: 1, points: [2, 0, 0, 0], ..Axes::default() };
/// let (knots, tensor) = ([0.0, 1.0], [0.0, 4.0, 4.0, 4.0]); // a straight line
/// let (mut values, mut labels, mut refusals) = ([0.0; 2], [0; 8], [0; 2]);
/// quick_queries(&axes, &knots, &tensor, &[0.25, f64::NAN], &mut values, &mut labels, &mut refusals)?;
/// assert_eq!((values, refusals), ([1.0, 0.0], [0, 7]));
/// # Ok::<(), hullashlar::Refusal>(())
/// ```
#[inline]
pub fn quick_queries(
    axes: &Axes,
    knots: &[f64],
    tensor: &[f64],
    coordinates: &[f64],
    values: &mut [f64],
    labels: &mut [usize],
    refusals: &mut [usize],
) -> Result<(), Refusal> {
    let given = Given {
        axes,
        numbers: &axes.modes,
        knots,
        surface: tensor,
        coordinates,
    };
    at_many(hullashlar_quick_queries, given, values, labels, refusals)
}

/// The direct query at many points, likewise.
///
/// ```
/// use hullashlar::{direct_queries, Axes};
///
/// let axes = Axes { count: 1, points: [2, 0, 0, 0], ..Axes::default() };
/// let (knots, tensor) = ([0.0, 1.0], [0.0, 4.0, 4.0, 4.0]); // a straight line
/// let (mut values, mut labels, mut refusals) = ([0.0; 2], [0; 8], [0; 2]);
/// direct_queries(&axes, &knots, &tensor, &[0.25, f64::NAN], &mut values, &mut labels, &mut refusals)?;
/// assert_eq!((values, refusals), ([1.0, 0.0], [0, 7]));
/// # Ok::<(), hullashlar::Refusal>(())
/// ```
#[inline]
pub fn direct_queries(
    axes: &Axes,
    knots: &[f64],
    tensor: &[f64],
    coordinates: &[f64],
    values: &mut [f64],
    labels: &mut [usize],
    refusals: &mut [usize],
) -> Result<(), Refusal> {
    let given = Given {
        axes,
        numbers: &axes.modes,
        knots,
        surface: tensor,
        coordinates,
    };
    at_many(hullashlar_direct_queries, given, values, labels, refusals)
}

/// The stepped surface at many points, one after the other: a value, four indices and a refusal for
/// each, as many as refusals are lent.
///
/// A point that is refused stops nothing: its number stands in its place of the refusals, 0 for
/// none, and [`Refusal::of`] names it. Refuses by 1 (axes), 2 (points), 3 (tensor), 4 (length),
/// 22 (mode), and then nothing is written.
///
/// ```
/// use hullashlar::{direction, stepped_many, Axes};
///
/// let axes = Axes { count: 1, points: [3, 0, 0, 0], ..Axes::default() };
/// let (knots, samples) = ([0.0, 1.0, 2.0], [5.0, 6.0, 7.0]);
/// let (mut values, mut indices, mut refusals) = ([0.0; 2], [0; 8], [0; 2]);
/// let upward = [direction::UPPER; 4];
/// stepped_many(&axes, upward, &knots, &samples, &[0.5, 1.0], &mut values, &mut indices, &mut refusals)?;
/// assert_eq!((values, refusals), ([6.0, 6.0], [0, 0]));
/// # Ok::<(), hullashlar::Refusal>(())
/// ```
#[allow(clippy::too_many_arguments)]
#[inline]
pub fn stepped_many(
    axes: &Axes,
    directions: [u8; 4],
    knots: &[f64],
    samples: &[f64],
    coordinates: &[f64],
    values: &mut [f64],
    indices: &mut [usize],
    refusals: &mut [usize],
) -> Result<(), Refusal> {
    let given = Given {
        axes,
        numbers: &directions,
        knots,
        surface: samples,
        coordinates,
    };
    at_many(hullashlar_stepped_many, given, values, indices, refusals)
}
