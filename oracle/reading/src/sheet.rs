//! The packed sheet: its reader, and the tensor of a sheet.

use crate::bits::Bits;
use crate::ends::{has_value, PERIODIC};
use crate::modes::modes_stand;
use crate::refusals::{points_in_range, require, Refusal, CURVE_SCRATCH};
use crate::shape::{Shape, LONGEST_TENSOR};
use crate::tensor::build;

/// The length of the lent buffers for knots and for samples.
pub const BUFFER: usize = 1024;

/// The editions: the first has no modes, and each axis of it is extended.
pub const EDITIONS: [usize; 2] = [1, 2];

/// What a sheet says; axes not in use stay as they are here at first, and so do all of a
/// sheet that is not read.
#[derive(Default)]
pub struct Sheet {
    edition: usize,
    pub axes: usize,
    pub points: [usize; 4],
    kinds: [u8; 8],
    values: [f64; 8],
    pub modes: [u8; 4],
    pub knots: Vec<f64>,
    pub samples: Vec<f64>,
}

/// Reads a sheet of either edition into lent buffers.
#[allow(clippy::too_many_arguments)]
pub fn read(
    bytes: &[u8],
    knots: &mut [f64],
    samples: &mut [f64],
    axes: &mut [usize],
    points: &mut [usize],
    kinds: &mut [u8],
    values: &mut [f64],
    modes: &mut [u8],
    edition: &mut [usize],
) -> Refusal {
    if !slots_stand(axes, points, kinds, values) || !slots_of_edition_2_stand(modes, edition) {
        return 4;
    }
    let read = read_sheet(&EDITIONS, bytes, knots, samples);
    let refusal = read.as_ref().err().copied().unwrap_or(0);
    let sheet = read.unwrap_or_default();
    hand_over(&sheet, axes, points, kinds, values);
    hand_over_edition_2(&sheet, modes, edition);
    refusal
}

/// Reads a sheet as the reader of edition 1 does, which knows no other edition and no modes.
pub fn read_edition_1(
    bytes: &[u8],
    knots: &mut [f64],
    samples: &mut [f64],
    axes: &mut [usize],
    points: &mut [usize],
    kinds: &mut [u8],
    values: &mut [f64],
) -> Refusal {
    if !slots_stand(axes, points, kinds, values) {
        return 4;
    }
    let read = read_sheet(&EDITIONS[..1], bytes, knots, samples);
    let refusal = read.as_ref().err().copied().unwrap_or(0);
    hand_over(&read.unwrap_or_default(), axes, points, kinds, values);
    refusal
}

/// Whether the slots for the axes of a sheet have their lengths.
fn slots_stand(axes: &[usize], points: &[usize], kinds: &[u8], values: &[f64]) -> bool {
    axes.len() == 1 && points.len() == 4 && kinds.len() == 8 && values.len() == 8
}

/// Whether the slots for what edition 2 brought have their lengths.
fn slots_of_edition_2_stand(modes: &[u8], edition: &[usize]) -> bool {
    modes.len() == 4 && edition.len() == 1
}

/// Stores the axes of a sheet in their slots.
fn hand_over(
    sheet: &Sheet,
    axes: &mut [usize],
    points: &mut [usize],
    kinds: &mut [u8],
    values: &mut [f64],
) {
    axes[0] = sheet.axes;
    points.copy_from_slice(&sheet.points);
    kinds.copy_from_slice(&sheet.kinds);
    values.copy_from_slice(&sheet.values);
}

/// Stores the modes and the edition of a sheet in their slots.
fn hand_over_edition_2(sheet: &Sheet, modes: &mut [u8], edition: &mut [usize]) {
    modes.copy_from_slice(&sheet.modes);
    edition[0] = sheet.edition;
}

/// Reads a sheet of either edition and builds its tensor into the first numbers of a lent one. A
/// sheet that is read is handed over, built or not.
#[allow(clippy::too_many_arguments)]
pub fn sheet_tensor(
    bytes: &[u8],
    knots: &mut [f64],
    samples: &mut [f64],
    axes: &mut [usize],
    points: &mut [usize],
    kinds: &mut [u8],
    values: &mut [f64],
    modes: &mut [u8],
    edition: &mut [usize],
    tensor: &mut [f64],
    scratch: &mut [f64],
    length: &mut [usize],
) -> Refusal {
    let slots_stand = slots_stand(axes, points, kinds, values)
        && slots_of_edition_2_stand(modes, edition)
        && length.len() == 1;
    if !slots_stand {
        return 4;
    }
    let read = require(tensor.len() == LONGEST_TENSOR, 4)
        .and_then(|()| read_sheet(&EDITIONS, bytes, knots, samples));
    let built = match &read {
        Ok(sheet) => build_sheet(sheet, tensor, scratch),
        Err(refusal) => Err(*refusal),
    };
    let sheet = read.unwrap_or_default();
    hand_over(&sheet, axes, points, kinds, values);
    hand_over_edition_2(&sheet, modes, edition);
    length[0] = built.unwrap_or(0);
    built.err().unwrap_or(0)
}

/// All that the sheet program prints: the tensor of a sheet, a line for each number, or its refusal.
pub fn sheet_text(sheet: &[u8]) -> String {
    let mut tensor = vec![0.0; LONGEST_TENSOR];
    let mut scratch = vec![0.0; LONGEST_TENSOR + CURVE_SCRATCH];
    let read = parse(&EDITIONS, sheet);
    match read.and_then(|sheet| build_sheet(&sheet, &mut tensor, &mut scratch)) {
        Ok(length) => {
            let numbers = tensor[..length].iter().map(|number| number.to_bits());
            let lines: String = numbers.map(|bits| format!("{bits:016X}\n")).collect();
            format!("tensor {length}\n{lines}")
        }
        Err(refusal) => format!("refused {refusal}\n"),
    }
}

/// The sheet of one of some editions, once its knots and samples stand in the lent buffers.
fn read_sheet(
    editions: &[usize],
    bytes: &[u8],
    knots: &mut [f64],
    samples: &mut [f64],
) -> Result<Sheet, Refusal> {
    require(knots.len() == BUFFER && samples.len() == BUFFER, 4)?;
    let sheet = parse(editions, bytes)?;
    knots[..sheet.knots.len()].copy_from_slice(&sheet.knots);
    samples[..sheet.samples.len()].copy_from_slice(&sheet.samples);
    Ok(sheet)
}

/// The length of a sheet's tensor, once it stands in the lent one.
pub fn build_sheet(
    sheet: &Sheet,
    tensor: &mut [f64],
    scratch: &mut [f64],
) -> Result<usize, Refusal> {
    let length = sheet.samples.len() << sheet.axes;
    let refusal = build(
        sheet.axes,
        &sheet.points,
        &sheet.kinds,
        &sheet.values,
        &sheet.knots,
        &sheet.samples,
        &mut tensor[..length],
        scratch,
    );
    require(refusal == 0, refusal).map(|()| length)
}

/// The sheet that some bytes are: its fields, and nothing behind them but zero bits to the byte.
pub fn parse(editions: &[usize], bytes: &[u8]) -> Result<Sheet, Refusal> {
    let mut bits = Bits::new(bytes);
    let sheet = parse_fields(&mut bits, editions)?;
    require(bits.remaining() < 8, 14)?;
    zeros_to_the_byte(&mut bits)?;
    Ok(sheet)
}

/// The sheet at the front of a stream and how many bytes it has. Of the tail only the bits to the
/// byte are its own.
pub fn parse_front(stream: &[u8]) -> Result<(Sheet, usize), Refusal> {
    let mut bits = Bits::new(stream);
    let sheet = parse_fields(&mut bits, &EDITIONS)?;
    zeros_to_the_byte(&mut bits)?;
    Ok((sheet, stream.len() - bits.remaining() / 8))
}

/// 14 for a bit that is not zero.
fn zeros_to_the_byte(bits: &mut Bits) -> Result<(), Refusal> {
    let rest = bits.remaining() % 8;
    require(bits.field(rest)? == 0, 14)
}

/// The fields in reading order, each with the faults met there.
fn parse_fields(bits: &mut Bits, editions: &[usize]) -> Result<Sheet, Refusal> {
    let mut sheet = Sheet {
        edition: bits.field(4)? as usize,
        ..Sheet::default()
    };
    require(editions.contains(&sheet.edition), 12)?;
    let axes = bits.field(3)? as usize;
    require((1..=4).contains(&axes), 1)?;
    sheet.axes = axes;
    for axis in 0..axes {
        parse_axis(bits, axis, &mut sheet)?;
    }
    let samples = Shape::checked(axes, &sheet.points)?.samples_length();
    sheet.samples = bits.floats(samples)?;
    Ok(sheet)
}

/// Points, kinds, in edition 2 the mode, end values and knots of one axis.
fn parse_axis(bits: &mut Bits, axis: usize, sheet: &mut Sheet) -> Result<(), Refusal> {
    let points = bits.field(8)? as usize + 1;
    require(points_in_range(points), 2)?;
    sheet.points[axis] = points;
    let kinds = [bits.field(2)? as u8, bits.field(2)? as u8];
    require((kinds[0] == PERIODIC) == (kinds[1] == PERIODIC), 13)?;
    if sheet.edition == 2 {
        sheet.modes[axis] = bits.field(2)? as u8;
        modes_stand(&sheet.modes[axis..=axis])?;
    }
    for (end, kind) in kinds.into_iter().enumerate() {
        sheet.kinds[2 * axis + end] = kind;
        if has_value(kind) {
            sheet.values[2 * axis + end] = bits.float()?;
        }
    }
    sheet.knots.extend(bits.floats(points)?);
    Ok(())
}
