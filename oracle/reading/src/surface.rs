//! The one call for firmware: a sheet and four coordinate patterns in, one pattern out.

use crate::query::query;
use crate::refusals::{require, Refusal, CURVE_SCRATCH};
use crate::sheet::{build_sheet, parse, Sheet, EDITIONS};

/// The pattern to which a refusal's number is added; no number that is an answer has such a one.
pub const REFUSED: u64 = 0x7FF8_0000_0000_0000;

/// The most numbers of a tensor here, since the stack of the host is small.
pub const SURFACE_TENSOR: usize = 512;

/// The value of a sheet's surface at four coordinates, of which those past its axes are the
/// pattern 0.
pub fn surface(bytes: &[u8], coordinates: [u64; 4]) -> u64 {
    match value(bytes, &coordinates) {
        Ok(value) => value.to_bits(),
        Err(refusal) => REFUSED + refusal as u64,
    }
}

/// The faults of the sheet first, then 16 and 17, then those of the build and of the query.
fn value(bytes: &[u8], coordinates: &[u64; 4]) -> Result<f64, Refusal> {
    let sheet = parse(&EDITIONS, bytes)?;
    let length = sheet.samples.len() << sheet.axes;
    require(length <= SURFACE_TENSOR, 16)?;
    let (used, unused) = coordinates.split_at(sheet.axes);
    require(unused.iter().all(|pattern| *pattern == 0), 17)?;
    let mut tensor = vec![0.0; length];
    build_sheet(&sheet, &mut tensor, &mut vec![0.0; length + CURVE_SCRATCH])?;
    let point: Vec<f64> = used
        .iter()
        .map(|pattern| f64::from_bits(*pattern))
        .collect();
    queried(&sheet, &tensor, &point)
}

/// The value of a tensor at a point, in the modes of its sheet.
fn queried(sheet: &Sheet, tensor: &[f64], point: &[f64]) -> Result<f64, Refusal> {
    let mut value = [0.0];
    let refusal = query(
        sheet.axes,
        &sheet.points,
        &sheet.modes,
        &sheet.knots,
        tensor,
        point,
        &mut value,
        &mut [0; 4],
    );
    require(refusal == 0, refusal).map(|()| value[0])
}
