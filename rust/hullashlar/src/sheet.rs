//! Packed sheets.

use crate::axes::Axes;
use crate::declared::{
    hullashlar_read, hullashlar_read_edition_1, hullashlar_sheet_tensor, hullashlar_surface,
    hullashlar_write,
};
use crate::refusal::{outcome, refused, Refusal};

/// The pattern that a refusal's number is added to where a pattern is answered. No finite double has all of its bits.
///
/// ```
/// assert!(f64::from_bits(hullashlar::REFUSED).is_nan());
/// ```
pub const REFUSED: u64 = 0x7FF8_0000_0000_0000;

/// What a packed sheet says beside its knots and samples.
///
/// ```
/// use hullashlar::{read, write, Axes, BUFFER, LONGEST_SHEET};
///
/// let axes = Axes { count: 1, points: [2, 0, 0, 0], kinds: [2; 8], ..Axes::default() };
/// let mut sheet = [0; LONGEST_SHEET];
/// let length = write(2, &axes, &[0.0, 1.0], &[0.0, 4.0], &mut sheet)?;
/// let sheet = read(&sheet[..length], &mut [0.0; BUFFER], &mut [0.0; BUFFER])?;
/// assert_eq!((sheet.edition, sheet.axes.points), (2, [2, 0, 0, 0]));
/// # Ok::<(), hullashlar::Refusal>(())
/// ```
#[derive(Debug, Clone, Default, PartialEq)]
pub struct Sheet {
    /// The edition, in which it can be written back as it came.
    pub edition: usize,
    /// The axes.
    pub axes: Axes,
}

/// The edition and the axes of a packed sheet, once its knots and samples stand in the lent
/// buffers.
///
/// The buffers are [`BUFFER`](crate::BUFFER) long. Refuses by 4 (length), and then by the first of
/// 11 (short), 12 (edition), 1 (axes), 2 (points), 13 (kinds), 22 (mode), 3 (tensor), 14 (tail)
/// that is met on the way through the sheet.
///
/// ```
/// use hullashlar::{read, write, Axes, BUFFER, LONGEST_SHEET};
///
/// let axes = Axes { count: 1, points: [2, 0, 0, 0], kinds: [2; 8], ..Axes::default() };
/// let mut sheet = [0; LONGEST_SHEET];
/// let length = write(2, &axes, &[0.0, 1.0], &[0.0, 4.0], &mut sheet)?;
/// let (mut knots, mut samples) = ([0.0; BUFFER], [0.0; BUFFER]);
/// read(&sheet[..length], &mut knots, &mut samples)?;
/// assert_eq!((&knots[..2], &samples[..2]), (&[0.0, 1.0][..], &[0.0, 4.0][..]));
/// # Ok::<(), hullashlar::Refusal>(())
/// ```
#[inline]
#[rustfmt::skip]
pub fn read(
    bytes: &[u8],
    knots: &mut [f64],
    samples: &mut [f64],
) -> Result<Sheet, Refusal> {
    let mut axes = Axes::default();
    let (mut count, mut edition) = ([0], [0]);
    // SAFETY: each pointer goes with the length of a live slice, and no two slices overlap.
    let refusal = unsafe {
        hullashlar_read(
            bytes.as_ptr(), bytes.len(),
            knots.as_mut_ptr(), knots.len(),
            samples.as_mut_ptr(), samples.len(),
            count.as_mut_ptr(), count.len(),
            axes.points.as_mut_ptr(), axes.points.len(),
            axes.kinds.as_mut_ptr(), axes.kinds.len(),
            axes.values.as_mut_ptr(), axes.values.len(),
            axes.modes.as_mut_ptr(), axes.modes.len(),
            edition.as_mut_ptr(), edition.len(),
        )
    };
    axes.count = count[0];
    outcome(refusal, Sheet { edition: edition[0], axes })
}

/// The axes of a packed sheet of edition 1, once its knots and samples stand in the lent buffers.
///
/// The buffers are [`BUFFER`](crate::BUFFER) long. Refuses as [`read`] does, but no mode, and a
/// sheet of edition 2 by 12 (edition).
///
/// ```
/// use hullashlar::{read_edition_1, write, Axes, BUFFER, LONGEST_SHEET};
///
/// let axes = Axes { count: 1, points: [2, 0, 0, 0], kinds: [2; 8], ..Axes::default() };
/// let mut sheet = [0; LONGEST_SHEET];
/// let length = write(1, &axes, &[0.0, 1.0], &[0.0, 4.0], &mut sheet)?;
/// let read = read_edition_1(&sheet[..length], &mut [0.0; BUFFER], &mut [0.0; BUFFER])?;
/// assert_eq!(read.points, [2, 0, 0, 0]);
/// # Ok::<(), hullashlar::Refusal>(())
/// ```
#[inline]
#[rustfmt::skip]
pub fn read_edition_1(
    bytes: &[u8],
    knots: &mut [f64],
    samples: &mut [f64],
) -> Result<Axes, Refusal> {
    let mut axes = Axes::default();
    let mut count = [0];
    // SAFETY: each pointer goes with the length of a live slice, and no two slices overlap.
    let refusal = unsafe {
        hullashlar_read_edition_1(
            bytes.as_ptr(), bytes.len(),
            knots.as_mut_ptr(), knots.len(),
            samples.as_mut_ptr(), samples.len(),
            count.as_mut_ptr(), count.len(),
            axes.points.as_mut_ptr(), axes.points.len(),
            axes.kinds.as_mut_ptr(), axes.kinds.len(),
            axes.values.as_mut_ptr(), axes.values.len(),
        )
    };
    axes.count = count[0];
    outcome(refusal, axes)
}

/// The edition and the axes of a packed sheet and the length of its tensor, once its knots, its
/// samples and the tensor stand in the lent buffers.
///
/// Knots and samples are [`BUFFER`](crate::BUFFER) long, the tensor
/// [`LONGEST_TENSOR`](crate::LONGEST_TENSOR), and scratch at least [`SCRATCH`](crate::SCRATCH)
/// longer than the tensor of the sheet. Refuses as [`read`] does, then as a build by 5 (scratch),
/// 7 (number), 8 (knots), 9 (fewness), 10 (outcome).
///
/// ```
/// use hullashlar::{sheet_tensor, write, Axes, BUFFER, LONGEST_SHEET, LONGEST_TENSOR, SCRATCH};
///
/// let axes = Axes { count: 1, points: [2, 0, 0, 0], kinds: [2; 8], ..Axes::default() };
/// let mut sheet = [0; LONGEST_SHEET];
/// let length = write(2, &axes, &[0.0, 1.0], &[0.0, 4.0], &mut sheet)?;
/// let (mut knots, mut samples, mut tensor) = ([0.0; BUFFER], [0.0; BUFFER], [0.0; LONGEST_TENSOR]);
/// let mut scratch = [0.0; LONGEST_TENSOR + SCRATCH];
/// let (_, numbers) = sheet_tensor(&sheet[..length], &mut knots, &mut samples, &mut tensor, &mut scratch)?;
/// assert_eq!(tensor[..numbers], [0.0, 4.0, 4.0, 4.0]);
/// # Ok::<(), hullashlar::Refusal>(())
/// ```
#[inline]
#[rustfmt::skip]
pub fn sheet_tensor(
    bytes: &[u8],
    knots: &mut [f64],
    samples: &mut [f64],
    tensor: &mut [f64],
    scratch: &mut [f64],
) -> Result<(Sheet, usize), Refusal> {
    let mut axes = Axes::default();
    let (mut count, mut edition, mut length) = ([0], [0], [0]);
    // SAFETY: each pointer goes with the length of a live slice, and no two slices overlap.
    let refusal = unsafe {
        hullashlar_sheet_tensor(
            bytes.as_ptr(), bytes.len(),
            knots.as_mut_ptr(), knots.len(),
            samples.as_mut_ptr(), samples.len(),
            count.as_mut_ptr(), count.len(),
            axes.points.as_mut_ptr(), axes.points.len(),
            axes.kinds.as_mut_ptr(), axes.kinds.len(),
            axes.values.as_mut_ptr(), axes.values.len(),
            axes.modes.as_mut_ptr(), axes.modes.len(),
            edition.as_mut_ptr(), edition.len(),
            tensor.as_mut_ptr(), tensor.len(),
            scratch.as_mut_ptr(), scratch.len(),
            length.as_mut_ptr(), length.len(),
        )
    };
    axes.count = count[0];
    outcome(refusal, (Sheet { edition: edition[0], axes }, length[0]))
}

/// Writes the packed sheet of axes, knots and samples in an edition to the first of the bytes;
/// gives how many it has.
///
/// Knots and samples have the lengths that the axes say; [`LONGEST_SHEET`](crate::LONGEST_SHEET)
/// bytes are enough for every sheet. Refuses by 1 (axes), 2 (points), 3 (tensor), 4 (length),
/// 13 (kinds), 22 (mode), 7 (number), 8 (knots), 9 (fewness), 12 (edition), 23 (lost), 15 (buffer).
///
/// ```
/// use hullashlar::{write, Axes, LONGEST_SHEET};
///
/// let axes = Axes { count: 1, points: [2, 0, 0, 0], kinds: [2; 8], ..Axes::default() };
/// let mut sheet = [0; LONGEST_SHEET];
/// let length = write(2, &axes, &[0.0, 1.0], &[0.0, 4.0], &mut sheet)?;
/// assert_eq!(length, 51);
/// # Ok::<(), hullashlar::Refusal>(())
/// ```
#[inline]
#[rustfmt::skip]
pub fn write(
    edition: usize,
    axes: &Axes,
    knots: &[f64],
    samples: &[f64],
    bytes: &mut [u8],
) -> Result<usize, Refusal> {
    let mut length = [0];
    // SAFETY: each pointer goes with the length of a live slice, and no two slices overlap.
    let refusal = unsafe {
        hullashlar_write(
            axes.count,
            axes.points.as_ptr(), axes.points.len(),
            axes.kinds.as_ptr(), axes.kinds.len(),
            axes.values.as_ptr(), axes.values.len(),
            axes.modes.as_ptr(), axes.modes.len(),
            knots.as_ptr(), knots.len(),
            samples.as_ptr(), samples.len(),
            edition,
            bytes.as_mut_ptr(), bytes.len(),
            length.as_mut_ptr(), length.len(),
        )
    };
    outcome(refusal, length[0])
}

/// The value of a sheet's surface at the patterns of four coordinates, those past its axes 0: read,
/// built and asked in one call, with all memory on the stack.
///
/// Refuses by the first of 11 (short), 12 (edition), 1 (axes), 2 (points), 13 (kinds), 22 (mode),
/// 3 (tensor), 14 (tail) that is met on the way through the sheet; then by 16 (stack), 17 (unused),
/// as a build by 7 (number), 8 (knots), 9 (fewness), 10 (outcome), and as a query by 7 (number),
/// 18 (outside), 10 (outcome).
///
/// ```
/// use hullashlar::{surface, write, Axes, LONGEST_SHEET};
///
/// let axes = Axes { count: 1, points: [2, 0, 0, 0], kinds: [2; 8], ..Axes::default() };
/// let mut sheet = [0; LONGEST_SHEET];
/// let length = write(2, &axes, &[0.0, 1.0], &[0.0, 4.0], &mut sheet)?;
/// assert_eq!(surface(&sheet[..length], [0.25_f64.to_bits(), 0, 0, 0]), Ok(1.0));
/// # Ok::<(), hullashlar::Refusal>(())
/// ```
#[inline]
#[rustfmt::skip]
pub fn surface(bytes: &[u8], patterns: [u64; 4]) -> Result<f64, Refusal> {
    let [c0, c1, c2, c3] = patterns;
    // SAFETY: the pointer goes with the length of a live slice.
    let answer = unsafe { hullashlar_surface(bytes.as_ptr(), bytes.len(), c0, c1, c2, c3) };
    match answer & REFUSED {
        REFUSED => Err(refused((answer - REFUSED) as usize)),
        _ => Ok(f64::from_bits(answer)),
    }
}
