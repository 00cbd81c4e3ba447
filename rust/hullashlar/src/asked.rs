//! Calls of one shape, each made once: a surface asked at one point, and at many.

use crate::axes::Axes;
use crate::declared::Count;
use crate::refusal::{outcome, Refusal};

/// An exported call at one point: the axes, their points, their modes or directions, their knots, the tensor or the samples, the
/// coordinates; and for the answer the value and the labels or indices.
type AtOne = unsafe extern "C" fn(
    Count,
    *const Count,
    Count,
    *const u8,
    Count,
    *const f64,
    Count,
    *const f64,
    Count,
    *const f64,
    Count,
    *mut f64,
    Count,
    *mut Count,
    Count,
) -> Count;

/// The same at many points, with a refusal for each.
type AtMany = unsafe extern "C" fn(
    Count,
    *const Count,
    Count,
    *const u8,
    Count,
    *const f64,
    Count,
    *const f64,
    Count,
    *const f64,
    Count,
    *mut f64,
    Count,
    *mut Count,
    Count,
    *mut Count,
    Count,
) -> Count;

/// A surface asked at one point, with a mode or a direction for each axis.
#[inline]
#[rustfmt::skip]
pub fn at_one(
    call: AtOne,
    axes: &Axes,
    numbers: &[u8; 4],
    knots: &[f64],
    surface: &[f64],
    coordinates: &[f64],
) -> Result<(f64, [usize; 4]), Refusal> {
    let mut value = [0.0];
    let mut labels = [0; 4];
    // SAFETY: each pointer goes with the length of a live slice, and no two slices overlap.
    let refusal = unsafe {
        call(
            axes.count,
            axes.points.as_ptr(), axes.points.len(),
            numbers.as_ptr(), numbers.len(),
            knots.as_ptr(), knots.len(),
            surface.as_ptr(), surface.len(),
            coordinates.as_ptr(), coordinates.len(),
            value.as_mut_ptr(), value.len(),
            labels.as_mut_ptr(), labels.len(),
        )
    };
    outcome(refusal, (value[0], labels))
}

/// What a surface is asked with at many points.
pub struct Given<'a> {
    pub axes: &'a Axes,
    pub numbers: &'a [u8; 4],
    pub knots: &'a [f64],
    pub surface: &'a [f64],
    pub coordinates: &'a [f64],
}

/// A surface asked at many points.
#[inline]
#[rustfmt::skip]
pub fn at_many(
    call: AtMany,
    given: Given,
    values: &mut [f64],
    labels: &mut [usize],
    refusals: &mut [usize],
) -> Result<(), Refusal> {
    let Given { axes, numbers, knots, surface, coordinates } = given;
    // SAFETY: each pointer goes with the length of a live slice, and no two slices overlap.
    let refusal = unsafe {
        call(
            axes.count,
            axes.points.as_ptr(), axes.points.len(),
            numbers.as_ptr(), numbers.len(),
            knots.as_ptr(), knots.len(),
            surface.as_ptr(), surface.len(),
            coordinates.as_ptr(), coordinates.len(),
            values.as_mut_ptr(), values.len(),
            labels.as_mut_ptr(), labels.len(),
            refusals.as_mut_ptr(), refusals.len(),
        )
    };
    outcome(refusal, ())
}
