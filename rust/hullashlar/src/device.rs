//! For aids without a float unit: cells and curves in whole numbers.

use crate::declared::{hullashlar_cell_value, hullashlar_cursor_next};
use crate::refusal::{outcome, Refusal};

/// The value of a cell in whole numbers, p0, p1, d0, d1, at position k of 256: the exact value of
/// the cubic, rounded to the nearest, a half away from zero.
///
/// Refuses by 19 (range) for a value outside -32,768..32,767 or a slope outside -131,072..131,071,
/// and by 20 (position).
///
/// ```
/// use hullashlar::{cell_value, Refusal};
///
/// assert_eq!(cell_value([0, 256, 256, 256], 64), Ok(64));
/// assert_eq!(cell_value([0, 256, 256, 256], 257), Err(Refusal::Position));
/// ```
#[inline]
#[rustfmt::skip]
pub fn cell_value(cell: [i32; 4], k: i32) -> Result<i32, Refusal> {
    let [p0, p1, d0, d1] = cell;
    let mut value = [0];
    // SAFETY: the pointer goes with the length of a live slice.
    let refusal = unsafe {
        hullashlar_cell_value(
            p0, p1, d0, d1, k,
            value.as_mut_ptr(), value.len(),
        )
    };
    outcome(refusal, value[0])
}

/// The value at a cursor of a curve of such cells; the cursor, which starts at 0, is moved on.
///
/// A cell is 16 bytes: p0, p1, d0, d1, each 32 bits with a sign, the lowest byte first. Refuses by
/// 20 (position) for a curve that is not 1 to 255 whole cells, 19 (range) for a value or a slope
/// out of range anywhere in it, and 20 (position) past the end.
///
/// ```
/// use hullashlar::cursor_next;
///
/// let curve: Vec<u8> = [0_i32, 256, 256, 256].into_iter().flat_map(i32::to_le_bytes).collect();
/// let mut cursor = 0;
/// let values: Vec<i32> = std::iter::from_fn(|| cursor_next(&curve, &mut cursor).ok()).collect();
/// assert_eq!(values, (0..=256).collect::<Vec<_>>());
/// ```
#[inline]
#[rustfmt::skip]
pub fn cursor_next(curve: &[u8], cursor: &mut u32) -> Result<i32, Refusal> {
    let mut value = [0];
    // SAFETY: each pointer goes with the length of a live slice, and no two slices overlap.
    let refusal = unsafe {
        hullashlar_cursor_next(
            curve.as_ptr(), curve.len(),
            cursor, 1,
            value.as_mut_ptr(), value.len(),
        )
    };
    outcome(refusal, value[0])
}
