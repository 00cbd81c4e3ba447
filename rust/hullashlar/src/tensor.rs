//! The tensor of a grid.

use crate::axes::Axes;
use crate::declared::{hullashlar_build, hullashlar_change, hullashlar_verify};
use crate::refusal::{outcome, Refusal};

/// The tensor of samples on a grid.
///
/// Knots, samples and tensor have the lengths that the axes say; scratch is at least
/// [`SCRATCH`](crate::SCRATCH) longer than the tensor. Refuses by 1 (axes), 2 (points), 3 (tensor),
/// 4 (length), 13 (kinds), 5 (scratch), 7 (number), 8 (knots), 9 (fewness), 10 (outcome).
///
/// ```
/// use hullashlar::{build, kind, Axes, SCRATCH};
///
/// let axes = Axes { count: 1, points: [2, 0, 0, 0], kinds: [kind::SECOND_DERIVATIVE; 8], ..Axes::default() };
/// let (mut tensor, mut scratch) = ([0.0; 4], [0.0; 4 + SCRATCH]);
/// build(&axes, &[0.0, 1.0], &[0.0, 4.0], &mut tensor, &mut scratch)?;
/// assert_eq!(tensor, [0.0, 4.0, 4.0, 4.0]); // of each knot the sample and the slope
/// # Ok::<(), hullashlar::Refusal>(())
/// ```
#[inline]
#[rustfmt::skip]
pub fn build(
    axes: &Axes,
    knots: &[f64],
    samples: &[f64],
    tensor: &mut [f64],
    scratch: &mut [f64],
) -> Result<(), Refusal> {
    // SAFETY: each pointer goes with the length of a live slice, and no two slices overlap.
    let refusal = unsafe {
        hullashlar_build(
            axes.count,
            axes.points.as_ptr(), axes.points.len(),
            axes.kinds.as_ptr(), axes.kinds.len(),
            axes.values.as_ptr(), axes.values.len(),
            knots.as_ptr(), knots.len(),
            samples.as_ptr(), samples.len(),
            tensor.as_mut_ptr(), tensor.len(),
            scratch.as_mut_ptr(), scratch.len(),
        )
    };
    outcome(refusal, ())
}

/// One sample changed in a tensor; gives how many lanes were solved again.
///
/// Of a tensor that was built, whatever changes followed, each number then has the bits of a fresh
/// build from the samples that stand now. The lengths are those of [`build`]. Refuses by 1 (axes),
/// 2 (points), 3 (tensor), 4 (length), 13 (kinds), 5 (scratch), 6 (place), 7 (number), 8 (knots),
/// 9 (fewness), 10 (outcome).
///
/// ```
/// use hullashlar::{build, change, kind, Axes, SCRATCH};
///
/// let axes = Axes { count: 1, points: [2, 0, 0, 0], kinds: [kind::SECOND_DERIVATIVE; 8], ..Axes::default() };
/// let (mut tensor, mut scratch) = ([0.0; 4], [0.0; 4 + SCRATCH]);
/// build(&axes, &[0.0, 1.0], &[0.0, 4.0], &mut tensor, &mut scratch)?;
/// assert_eq!(change(&axes, &[0.0, 1.0], &mut tensor, &mut scratch, [1, 0, 0, 0], 3.0)?, 1);
/// assert_eq!(tensor, [0.0, 3.0, 3.0, 3.0]);
/// # Ok::<(), hullashlar::Refusal>(())
/// ```
#[inline]
#[rustfmt::skip]
pub fn change(
    axes: &Axes,
    knots: &[f64],
    tensor: &mut [f64],
    scratch: &mut [f64],
    place: [usize; 4],
    sample: f64,
) -> Result<usize, Refusal> {
    let mut lanes = [0];
    // SAFETY: each pointer goes with the length of a live slice, and no two slices overlap.
    let refusal = unsafe {
        hullashlar_change(
            axes.count,
            axes.points.as_ptr(), axes.points.len(),
            axes.kinds.as_ptr(), axes.kinds.len(),
            axes.values.as_ptr(), axes.values.len(),
            knots.as_ptr(), knots.len(),
            tensor.as_mut_ptr(), tensor.len(),
            scratch.as_mut_ptr(), scratch.len(),
            place.as_ptr(), place.len(),
            sample,
            lanes.as_mut_ptr(), lanes.len(),
        )
    };
    outcome(refusal, lanes[0])
}

/// Where a tensor first differs from the build of its own samples, and how many numbers do.
///
/// ```
/// use hullashlar::{Axes, Stale, Surface};
///
/// let axes = Axes { count: 1, points: [4, 0, 0, 0], ..Axes::default() };
/// let mut surface = Surface::build(axes, &[0.0, 1.0, 2.0, 3.0], &[0.0, 1.0, 4.0, 9.0])?;
/// surface.tensor_mut()[3] = 7.0; // the slope at knot 1
/// assert_eq!(surface.verify()?, Some(Stale { place: [1, 0, 0, 0], mask: 1, numbers: 1 }));
/// # Ok::<(), hullashlar::Refusal>(())
/// ```
#[derive(Debug, Clone, Copy, PartialEq, Eq)]
pub struct Stale {
    /// The indices of the first number that differs.
    pub place: [usize; 4],
    /// Its mask: bit i says that the number is a derivative along axis i.
    pub mask: usize,
    /// How many numbers differ.
    pub numbers: usize,
}

/// What of a tensor is not what a build of its own samples gives, bit for bit; nothing of a whole
/// one.
///
/// The lengths are those of [`build`]. Refuses by 1 (axes), 2 (points), 3 (tensor), 4 (length),
/// 13 (kinds), 5 (scratch), 7 (number), 8 (knots), 9 (fewness), 10 (outcome).
///
/// ```
/// use hullashlar::{kind, verify, Axes, SCRATCH};
///
/// let axes = Axes { count: 1, points: [2, 0, 0, 0], kinds: [kind::SECOND_DERIVATIVE; 8], ..Axes::default() };
/// let mut scratch = [0.0; 4 + SCRATCH];
/// assert_eq!(verify(&axes, &[0.0, 1.0], &[0.0, 4.0, 4.0, 4.0], &mut scratch)?, None);
/// let stale = verify(&axes, &[0.0, 1.0], &[0.0, 4.0, 3.0, 4.0], &mut scratch)?; // a sample was overwritten alone
/// assert_eq!(stale.map(|stale| stale.numbers), Some(2));
/// # Ok::<(), hullashlar::Refusal>(())
/// ```
#[inline]
#[rustfmt::skip]
pub fn verify(
    axes: &Axes,
    knots: &[f64],
    tensor: &[f64],
    scratch: &mut [f64],
) -> Result<Option<Stale>, Refusal> {
    let mut place = [0; 4];
    let mut found = [0; 3];
    // SAFETY: each pointer goes with the length of a live slice, and no two slices overlap.
    let refusal = unsafe {
        hullashlar_verify(
            axes.count,
            axes.points.as_ptr(), axes.points.len(),
            axes.kinds.as_ptr(), axes.kinds.len(),
            axes.values.as_ptr(), axes.values.len(),
            knots.as_ptr(), knots.len(),
            tensor.as_ptr(), tensor.len(),
            scratch.as_mut_ptr(), scratch.len(),
            place.as_mut_ptr(), place.len(),
            found.as_mut_ptr(), found.len(),
        )
    };
    let [whole, mask, numbers] = found;
    outcome(refusal, (whole == 0).then_some(Stale { place, mask, numbers }))
}
