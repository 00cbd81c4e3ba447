//! A curve on one axis.

use crate::declared::{hullashlar_curve, hullashlar_moments, hullashlar_slopes};
use crate::refusal::{outcome, Refusal};

/// The moments of the curve through the samples, under two ends: one for each knot.
///
/// Samples and moments are as long as the knots, scratch at least [`SCRATCH`](crate::SCRATCH).
/// Refuses by 2 (points), 4 (length), 13 (kinds), 5 (scratch), 7 (number), 8 (knots), 9 (fewness),
/// 10 (outcome).
///
/// ```
/// use hullashlar::{curve, kind, moments, SCRATCH};
///
/// let (knots, samples) = ([0.0, 1.0, 2.0, 3.0], [0.0, 1.0, 4.0, 9.0]);
/// let (mut answer, mut scratch) = ([0.0; 4], [0.0; SCRATCH]);
/// moments(&knots, &samples, [kind::NOT_A_KNOT; 2], [0.0; 2], &mut answer, &mut scratch)?;
/// assert_eq!(curve(&knots, &samples, &answer, 1.5), Ok(2.25));
/// # Ok::<(), hullashlar::Refusal>(())
/// ```
#[inline]
#[rustfmt::skip]
pub fn moments(
    knots: &[f64],
    samples: &[f64],
    kinds: [u8; 2],
    values: [f64; 2],
    moments: &mut [f64],
    scratch: &mut [f64],
) -> Result<(), Refusal> {
    // SAFETY: each pointer goes with the length of a live slice, and no two slices overlap.
    let refusal = unsafe {
        hullashlar_moments(
            knots.len(),
            knots.as_ptr(), knots.len(),
            samples.as_ptr(), samples.len(),
            kinds.as_ptr(), kinds.len(),
            values.as_ptr(), values.len(),
            moments.as_mut_ptr(), moments.len(),
            scratch.as_mut_ptr(), scratch.len(),
        )
    };
    outcome(refusal, ())
}

/// The curve's value at a point, beyond the knots too, by the boundary cubic.
///
/// Samples and moments are as long as the knots. Refuses by 2 (points), 4 (length), 7 (number),
/// 8 (knots), 10 (outcome).
///
/// ```
/// use hullashlar::curve;
///
/// // Without moments the curve is the straight line between its samples.
/// assert_eq!(curve(&[0.0, 1.0], &[0.0, 4.0], &[0.0, 0.0], 0.25), Ok(1.0));
/// ```
#[inline]
#[rustfmt::skip]
pub fn curve(
    knots: &[f64],
    samples: &[f64],
    moments: &[f64],
    point: f64,
) -> Result<f64, Refusal> {
    let mut value = [0.0];
    // SAFETY: each pointer goes with the length of a live slice, and no two slices overlap.
    let refusal = unsafe {
        hullashlar_curve(
            knots.len(),
            knots.as_ptr(), knots.len(),
            samples.as_ptr(), samples.len(),
            moments.as_ptr(), moments.len(),
            point,
            value.as_mut_ptr(), value.len(),
        )
    };
    outcome(refusal, value[0])
}

/// The curve's slope at every knot.
///
/// Samples, moments and slopes are as long as the knots. Refuses by 2 (points), 4 (length),
/// 7 (number), 8 (knots), 10 (outcome).
///
/// ```
/// let mut answer = [0.0; 2];
/// hullashlar::slopes(&[0.0, 1.0], &[0.0, 4.0], &[0.0, 0.0], &mut answer)?;
/// assert_eq!(answer, [4.0, 4.0]);
/// # Ok::<(), hullashlar::Refusal>(())
/// ```
#[inline]
#[rustfmt::skip]
pub fn slopes(
    knots: &[f64],
    samples: &[f64],
    moments: &[f64],
    slopes: &mut [f64],
) -> Result<(), Refusal> {
    // SAFETY: each pointer goes with the length of a live slice, and no two slices overlap.
    let refusal = unsafe {
        hullashlar_slopes(
            knots.len(),
            knots.as_ptr(), knots.len(),
            samples.as_ptr(), samples.len(),
            moments.as_ptr(), moments.len(),
            slopes.as_mut_ptr(), slopes.len(),
        )
    };
    outcome(refusal, ())
}
