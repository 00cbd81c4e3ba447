//! The limit's builds, changes and verifications, each with buffers of its own.

use crate::inputs::{Surface, CHANGED};
use crate::lines::{Work, ACCEPTED};
use std::ffi::c_int;

/// The ends of an axis in the limit's form.
#[repr(C)]
struct Ends {
    lower_kind: c_int,
    upper_kind: c_int,
    lower: f64,
    upper: f64,
}

extern "C" {
    fn lim_build(
        axes: c_int,
        points: *const c_int,
        ends: *const Ends,
        knots: *const f64,
        knots_length: usize,
        samples: *const f64,
        samples_length: usize,
        tensor: *mut f64,
        tensor_length: usize,
        scratch: *mut f64,
        scratch_length: usize,
    ) -> c_int;
    fn lim_change(
        axes: c_int,
        points: *const c_int,
        ends: *const Ends,
        knots: *const f64,
        knots_length: usize,
        place: *const c_int,
        value: f64,
        tensor: *mut f64,
        tensor_length: usize,
        scratch: *mut f64,
        scratch_length: usize,
    ) -> c_int;
    fn limit_verify(
        axes: usize,
        points: *const usize,
        points_length: usize,
        kinds: *const u8,
        kinds_length: usize,
        values: *const f64,
        values_length: usize,
        knots: *const f64,
        knots_length: usize,
        tensor: *const f64,
        tensor_length: usize,
        scratch: *mut f64,
        scratch_length: usize,
        found: *mut usize,
        found_length: usize,
    ) -> usize;
}

fn small(number: usize) -> c_int {
    c_int::try_from(number).expect("a grid's numbers are small")
}

fn ends(surface: &Surface) -> [Ends; 4] {
    let (kinds, values) = (surface.axes.kinds, surface.axes.values);
    [0, 1, 2, 3].map(|axis| Ends {
        lower_kind: kinds[2 * axis].into(),
        upper_kind: kinds[2 * axis + 1].into(),
        lower: values[2 * axis],
        upper: values[2 * axis + 1],
    })
}

pub fn build(surface: &Surface) -> Work<'_> {
    let points = surface.axes.points.map(small);
    let ends = ends(surface);
    let mut tensor = vec![0.0; surface.axes.tensor_length()];
    let mut scratch = surface.scratch();
    Box::new(move || {
        let Surface {
            axes,
            knots,
            samples,
            ..
        } = surface;
        // SAFETY: every pointer is that of a slice that is there, with its own length behind it.
        let refusal = unsafe {
            lim_build(
                small(axes.count),
                points.as_ptr(),
                ends.as_ptr(),
                knots.as_ptr(),
                knots.len(),
                samples.as_ptr(),
                samples.len(),
                tensor.as_mut_ptr(),
                tensor.len(),
                scratch.as_mut_ptr(),
                scratch.len(),
            )
        };
        assert_eq!(refusal, 0, "{ACCEPTED}");
        tensor[tensor.len() - 1]
    })
}

pub fn change(surface: &Surface) -> Work<'_> {
    let points = surface.axes.points.map(small);
    let place = surface.middle_place().map(small);
    let ends = ends(surface);
    let mut tensor: Vec<f64> = surface.tensor().iter().copied().collect();
    let mut scratch = surface.scratch();
    Box::new(move || {
        let Surface { axes, knots, .. } = surface;
        // SAFETY: as above; there are four indices.
        let lanes = unsafe {
            lim_change(
                small(axes.count),
                points.as_ptr(),
                ends.as_ptr(),
                knots.as_ptr(),
                knots.len(),
                place.as_ptr(),
                CHANGED,
                tensor.as_mut_ptr(),
                tensor.len(),
                scratch.as_mut_ptr(),
                scratch.len(),
            )
        };
        assert!(lanes > 0, "{ACCEPTED}");
        tensor[tensor.len() - 1]
    })
}

/// Its slot has two numbers: 1 where a number differs, or 0, and which is the first.
pub fn verify(surface: &Surface) -> Work<'_> {
    let tensor: Vec<f64> = surface.tensor().iter().copied().collect();
    let mut scratch = surface.scratch();
    Box::new(move || {
        let Surface { axes, knots, .. } = surface;
        let mut found = [0; 2];
        // SAFETY: every pointer is that of a slice that is there, with its own length behind it.
        let refusal = unsafe {
            limit_verify(
                axes.count,
                axes.points.as_ptr(),
                axes.points.len(),
                axes.kinds.as_ptr(),
                axes.kinds.len(),
                axes.values.as_ptr(),
                axes.values.len(),
                knots.as_ptr(),
                knots.len(),
                tensor.as_ptr(),
                tensor.len(),
                scratch.as_mut_ptr(),
                scratch.len(),
                found.as_mut_ptr(),
                found.len(),
            )
        };
        assert_eq!((refusal, found), (0, [0; 2]), "{ACCEPTED}");
        tensor[tensor.len() - 1]
    })
}
