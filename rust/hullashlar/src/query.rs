//! The value of a surface at a point.

use crate::asked::at_one;
use crate::axes::Axes;
use crate::declared::{
    hullashlar_direct_query, hullashlar_even_profile, hullashlar_even_query, hullashlar_query,
    hullashlar_quick_query,
};
use crate::refusal::{outcome, Refusal};

/// The tensor's value at a point, outside the knots of an axis as its mode says, and for each axis
/// the cell that was evaluated.
///
/// Knots and tensor have the lengths that the axes say, and there is a coordinate for each axis.
/// Refuses by 1 (axes), 2 (points), 3 (tensor), 4 (length), 22 (mode), 7 (number), 8 (knots),
/// 18 (outside), 10 (outcome).
///
/// ```
/// use hullashlar::{query, Axes};
///
/// let axes = Axes { count: 1, points: [2, 0, 0, 0], ..Axes::default() };
/// let (knots, tensor) = ([0.0, 1.0], [0.0, 4.0, 4.0, 4.0]); // a straight line
/// assert_eq!(query(&axes, &knots, &tensor, &[0.25]), Ok((1.0, [0; 4])));
/// ```
#[inline]
pub fn query(
    axes: &Axes,
    knots: &[f64],
    tensor: &[f64],
    coordinates: &[f64],
) -> Result<(f64, [usize; 4]), Refusal> {
    at_one(
        hullashlar_query,
        axes,
        &axes.modes,
        knots,
        tensor,
        coordinates,
    )
}

/// The same with no look at knots but those that the search visits and those of the cell.
///
/// On knots that [`query`] accepts the whole answer is the same. Refuses by 1 (axes), 2 (points),
/// 3 (tensor), 4 (length), 22 (mode), 7 (number) for coordinates alone, 8 (knots), 18 (outside),
/// 10 (outcome).
///
/// ```
/// use hullashlar::{quick_query, Axes};
///
/// let axes = Axes { count: 1, points: [2, 0, 0, 0], ..Axes::default() };
/// let (knots, tensor) = ([0.0, 1.0], [0.0, 4.0, 4.0, 4.0]); // a straight line
/// assert_eq!(quick_query(&axes, &knots, &tensor, &[0.25]), Ok((1.0, [0; 4])));
/// ```
#[inline]
pub fn quick_query(
    axes: &Axes,
    knots: &[f64],
    tensor: &[f64],
    coordinates: &[f64],
) -> Result<(f64, [usize; 4]), Refusal> {
    at_one(
        hullashlar_quick_query,
        axes,
        &axes.modes,
        knots,
        tensor,
        coordinates,
    )
}

/// The same in the cells that a division finds, on any knots; on knots that [`even_profile`]
/// accepts it is [`even_query`].
///
/// Refuses as [`quick_query`] does.
///
/// ```
/// use hullashlar::{direct_query, even_profile, Axes};
///
/// let axes = Axes { count: 1, points: [2, 0, 0, 0], ..Axes::default() };
/// let (knots, tensor) = ([0.0, 1.0], [0.0, 4.0, 4.0, 4.0]); // a straight line
/// even_profile(&axes, &knots).unwrap(); // once, where the knots are loaded
/// assert_eq!(direct_query(&axes, &knots, &tensor, &[0.25]), Ok((1.0, [0; 4])));
/// ```
#[inline]
pub fn direct_query(
    axes: &Axes,
    knots: &[f64],
    tensor: &[f64],
    coordinates: &[f64],
) -> Result<(f64, [usize; 4]), Refusal> {
    at_one(
        hullashlar_direct_query,
        axes,
        &axes.modes,
        knots,
        tensor,
        coordinates,
    )
}

/// The same where every axis is even, the cells found by division. A refusal comes with the axis
/// and the interval that are told after 21 (uneven), and with zeros else.
///
/// Refuses by 1 (axes), 2 (points), 3 (tensor), 4 (length), 22 (mode), 7 (number), 8 (knots),
/// 21 (uneven), 18 (outside), 10 (outcome).
///
/// ```
/// use hullashlar::{even_query, Axes, Refusal};
///
/// let axes = Axes { count: 1, points: [2, 0, 0, 0], ..Axes::default() };
/// let (knots, tensor) = ([0.0, 1.0], [0.0, 4.0, 4.0, 4.0]); // a straight line
/// assert_eq!(even_query(&axes, &knots, &tensor, &[0.25]), Ok((1.0, [0; 4])));
///
/// let axes = Axes { count: 1, points: [4, 0, 0, 0], ..Axes::default() };
/// let refused = even_query(&axes, &[0.0, 1.0, 2.0, 4.0], &[0.0; 8], &[0.25]);
/// assert_eq!(refused, Err((Refusal::Uneven, [0, 2]))); // on axis 0 the interval from knot 2
/// ```
#[inline]
#[rustfmt::skip]
pub fn even_query(
    axes: &Axes,
    knots: &[f64],
    tensor: &[f64],
    coordinates: &[f64],
) -> Result<(f64, [usize; 4]), (Refusal, [usize; 2])> {
    let mut value = [0.0];
    let mut labels = [0; 4];
    let mut uneven = [0; 2];
    // SAFETY: each pointer goes with the length of a live slice, and no two slices overlap.
    let refusal = unsafe {
        hullashlar_even_query(
            axes.count,
            axes.points.as_ptr(), axes.points.len(),
            axes.modes.as_ptr(), axes.modes.len(),
            knots.as_ptr(), knots.len(),
            tensor.as_ptr(), tensor.len(),
            coordinates.as_ptr(), coordinates.len(),
            value.as_mut_ptr(), value.len(),
            labels.as_mut_ptr(), labels.len(),
            uneven.as_mut_ptr(), uneven.len(),
        )
    };
    outcome(refusal, (value[0], labels)).map_err(|number| (number, uneven))
}

/// Whether the knots of even axes can be asked directly; else the refusal, with the axis and its
/// knot or interval where it is by 7 (number), 8 (knots) or 21 (uneven).
///
/// A host makes this call once, where a sheet is loaded, and asks by [`direct_query`] afterwards.
/// Refuses by 1 (axes), 2 (points), 3 (tensor), 4 (length), 7 (number), 8 (knots), 21 (uneven).
///
/// ```
/// use hullashlar::{even_profile, Axes, Refusal};
///
/// let axes = Axes { count: 1, points: [3, 0, 0, 0], ..Axes::default() };
/// assert_eq!(even_profile(&axes, &[0.0, 0.5, 1.0]), Ok(()));
/// assert_eq!(even_profile(&axes, &[0.0, 0.5, 0.5]), Err((Refusal::Knots, [0, 1])));
/// ```
#[inline]
#[rustfmt::skip]
pub fn even_profile(axes: &Axes, knots: &[f64]) -> Result<(), (Refusal, [usize; 2])> {
    let mut told = [0; 2];
    // SAFETY: each pointer goes with the length of a live slice, and no two slices overlap.
    let refusal = unsafe {
        hullashlar_even_profile(
            axes.count,
            axes.points.as_ptr(), axes.points.len(),
            knots.as_ptr(), knots.len(),
            told.as_mut_ptr(), told.len(),
        )
    };
    outcome(refusal, ()).map_err(|refusal| (refusal, told))
}
