//! The limit's calls of sheets, each with buffers of its own. They take what our calls of these names take.

use crate::hullashlar::{Axes, BUFFER, LONGEST_TENSOR, REFUSED};
use crate::inputs::Surface;
use crate::lines::{last_sample, Work, ACCEPTED};

#[rustfmt::skip]
extern "C" {
    fn limit_read(
        bytes: *const u8, bytes_length: usize,
        knots: *mut f64, knots_length: usize,
        samples: *mut f64, samples_length: usize,
        axes: *mut usize, axes_length: usize,
        points: *mut usize, points_length: usize,
        kinds: *mut u8, kinds_length: usize,
        values: *mut f64, values_length: usize,
        modes: *mut u8, modes_length: usize,
        edition: *mut usize, edition_length: usize,
    ) -> usize;
    fn limit_read_edition_1(
        bytes: *const u8, bytes_length: usize,
        knots: *mut f64, knots_length: usize,
        samples: *mut f64, samples_length: usize,
        axes: *mut usize, axes_length: usize,
        points: *mut usize, points_length: usize,
        kinds: *mut u8, kinds_length: usize,
        values: *mut f64, values_length: usize,
    ) -> usize;
    fn limit_write(
        axes: usize,
        points: *const usize, points_length: usize,
        kinds: *const u8, kinds_length: usize,
        values: *const f64, values_length: usize,
        modes: *const u8, modes_length: usize,
        knots: *const f64, knots_length: usize,
        samples: *const f64, samples_length: usize,
        edition: usize,
        bytes: *mut u8, bytes_length: usize,
        length: *mut usize, length_length: usize,
    ) -> usize;
    fn limit_sheet_tensor(
        bytes: *const u8, bytes_length: usize,
        knots: *mut f64, knots_length: usize,
        samples: *mut f64, samples_length: usize,
        axes: *mut usize, axes_length: usize,
        points: *mut usize, points_length: usize,
        kinds: *mut u8, kinds_length: usize,
        values: *mut f64, values_length: usize,
        modes: *mut u8, modes_length: usize,
        edition: *mut usize, edition_length: usize,
        tensor: *mut f64, tensor_length: usize,
        scratch: *mut f64, scratch_length: usize,
        length: *mut usize, length_length: usize,
    ) -> usize;
    fn limit_surface(
        bytes: *const u8, bytes_length: usize,
        c0: u64, c1: u64, c2: u64, c3: u64,
    ) -> u64;
}

#[rustfmt::skip]
pub fn read(surface: &Surface) -> Work<'_> {
    let sheet = surface.sheet();
    let last = surface.samples.len() - 1;
    let (mut knots, mut samples) = ([0.0; BUFFER], [0.0; BUFFER]);
    Box::new(move || {
        let mut axes = Axes::default();
        let (mut count, mut edition) = ([0], [0]);
        // SAFETY: every pointer is that of a slice that is there, with its own length behind it.
        let refusal = unsafe {
            limit_read(
                sheet.as_ptr(), sheet.len(),
                knots.as_mut_ptr(), knots.len(),
                samples.as_mut_ptr(), samples.len(),
                count.as_mut_ptr(), count.len(),
                axes.points.as_mut_ptr(), axes.points.len(),
                axes.kinds.as_mut_ptr(), axes.kinds.len(),
                axes.values.as_mut_ptr(), axes.values.len(),
                axes.modes.as_mut_ptr(), axes.modes.len(),
                edition.as_mut_ptr(), edition.len(),
            )
        };
        assert_eq!(refusal, 0, "{ACCEPTED}");
        samples[last]
    })
}

#[rustfmt::skip]
pub fn read_edition_1(surface: &Surface) -> Work<'_> {
    let sheet = surface.sheet();
    let last = surface.samples.len() - 1;
    let (mut knots, mut samples) = ([0.0; BUFFER], [0.0; BUFFER]);
    Box::new(move || {
        let mut axes = Axes::default();
        let mut count = [0];
        // SAFETY: as above.
        let refusal = unsafe {
            limit_read_edition_1(
                sheet.as_ptr(), sheet.len(),
                knots.as_mut_ptr(), knots.len(),
                samples.as_mut_ptr(), samples.len(),
                count.as_mut_ptr(), count.len(),
                axes.points.as_mut_ptr(), axes.points.len(),
                axes.kinds.as_mut_ptr(), axes.kinds.len(),
                axes.values.as_mut_ptr(), axes.values.len(),
            )
        };
        assert_eq!(refusal, 0, "{ACCEPTED}");
        samples[last]
    })
}

#[rustfmt::skip]
pub fn write(surface: &Surface) -> Work<'_> {
    let mut sheet = vec![0; surface.sheet().len()];
    let behind = surface.bits_behind();
    Box::new(move || {
        let Surface { axes, knots, samples, edition, .. } = surface;
        let mut length = [0];
        // SAFETY: as above.
        let refusal = unsafe {
            limit_write(
                axes.count,
                axes.points.as_ptr(), axes.points.len(),
                axes.kinds.as_ptr(), axes.kinds.len(),
                axes.values.as_ptr(), axes.values.len(),
                axes.modes.as_ptr(), axes.modes.len(),
                knots.as_ptr(), knots.len(),
                samples.as_ptr(), samples.len(),
                *edition,
                sheet.as_mut_ptr(), sheet.len(),
                length.as_mut_ptr(), length.len(),
            )
        };
        assert_eq!(refusal, 0, "{ACCEPTED}");
        last_sample(&sheet, behind)
    })
}

#[rustfmt::skip]
pub fn tensor(surface: &Surface) -> Work<'_> {
    let sheet = surface.sheet();
    let (mut knots, mut samples) = ([0.0; BUFFER], [0.0; BUFFER]);
    let mut tensor = vec![0.0; LONGEST_TENSOR];
    let mut scratch = surface.scratch();
    Box::new(move || {
        let mut axes = Axes::default();
        let (mut count, mut edition, mut length) = ([0], [0], [0]);
        // SAFETY: as above.
        let refusal = unsafe {
            limit_sheet_tensor(
                sheet.as_ptr(), sheet.len(),
                knots.as_mut_ptr(), knots.len(),
                samples.as_mut_ptr(), samples.len(),
                count.as_mut_ptr(), count.len(),
                axes.points.as_mut_ptr(), axes.points.len(),
                axes.kinds.as_mut_ptr(), axes.kinds.len(),
                axes.values.as_mut_ptr(), axes.values.len(),
                axes.modes.as_mut_ptr(), axes.modes.len(),
                edition.as_mut_ptr(), edition.len(),
                tensor.as_mut_ptr(), tensor.len(),
                scratch.as_mut_ptr(), scratch.len(),
                length.as_mut_ptr(), length.len(),
            )
        };
        assert_eq!(refusal, 0, "{ACCEPTED}");
        tensor[length[0] - 1]
    })
}

pub fn surface(surface: &Surface) -> Work<'_> {
    let sheet = surface.sheet();
    let [c0, c1, c2, c3] = surface.middle_patterns();
    Box::new(move || {
        // SAFETY: as above.
        let answer = unsafe { limit_surface(sheet.as_ptr(), sheet.len(), c0, c1, c2, c3) };
        assert_ne!(answer & REFUSED, REFUSED, "{ACCEPTED}");
        f64::from_bits(answer)
    })
}
