//! The writer of packed sheets.

use crate::ends::{has_value, kinds_stand};
use crate::modes::{modes_stand, EXTEND};
use crate::refusals::{all_finite, require, Refusal};
use crate::shape::Shape;
use crate::sheet::EDITIONS;
use crate::tensor::checked_conditions;

/// Writes the sheet of axes, knots and samples in an edition to the front of lent bytes, and its
/// length to a slot of one. Bytes behind it stay, and all of them on a refusal, whose length is 0.
#[allow(clippy::too_many_arguments)]
pub fn write(
    axes: usize,
    points: &[usize],
    kinds: &[u8],
    values: &[f64],
    modes: &[u8],
    knots: &[f64],
    samples: &[f64],
    edition: usize,
    bytes: &mut [u8],
    length: &mut [usize],
) -> Refusal {
    let sheet = Shape::checked(axes, points).and_then(|shape| {
        require(length.len() == 1, 4)?;
        require(kinds.len() == 8 && values.len() == 8 && modes.len() == 4, 4)?;
        require(knots.len() == shape.knots_length(), 4)?;
        require(samples.len() == shape.samples_length(), 4)?;
        kinds_stand(&kinds[..2 * axes])?;
        modes_stand(&modes[..axes])?;
        require(all_finite(samples), 7)?;
        checked_conditions(&shape, kinds, values, knots)?;
        edition_holds(edition, &modes[..axes])?;
        let sheet = sheet_of(edition, &shape, kinds, values, modes, knots, samples);
        require(sheet.len() <= bytes.len(), 15).map(|()| sheet)
    });
    let refusal = sheet.as_ref().err().copied().unwrap_or(0);
    if let [length] = length {
        *length = sheet.as_ref().map_or(0, Vec::len);
    }
    if let Ok(sheet) = sheet {
        bytes[..sheet.len()].copy_from_slice(&sheet);
    }
    refusal
}

/// 12 for an edition that there is not, and 23 for one that has no room for the modes.
fn edition_holds(edition: usize, modes: &[u8]) -> Result<(), Refusal> {
    require(EDITIONS.contains(&edition), 12)?;
    let extended = modes.iter().all(|mode| *mode == EXTEND);
    require(edition != 1 || extended, 23)
}

/// The bytes of a sheet: its fields one after the other, modes in edition 2 alone, and zero bits to
/// the byte.
fn sheet_of(
    edition: usize,
    shape: &Shape,
    kinds: &[u8],
    values: &[f64],
    modes: &[u8],
    knots: &[f64],
    samples: &[f64],
) -> Vec<u8> {
    let mut bits = Fields::default();
    bits.field(edition as u64, 4);
    bits.field(shape.axes() as u64, 3);
    for (axis, knots) in shape.knots_by_axis(knots).into_iter().enumerate() {
        let ends = [2 * axis, 2 * axis + 1];
        bits.field(knots.len() as u64 - 1, 8);
        for end in ends {
            bits.field(u64::from(kinds[end]), 2);
        }
        if edition == 2 {
            bits.field(u64::from(modes[axis]), 2);
        }
        for end in ends {
            if has_value(kinds[end]) {
                bits.floats(&values[end..=end]);
            }
        }
        bits.floats(knots);
    }
    bits.floats(samples);
    bits.to_bytes()
}

/// Bits one after the other, the most significant of a field first.
#[derive(Default)]
struct Fields {
    bits: Vec<bool>,
}

impl Fields {
    fn field(&mut self, number: u64, width: usize) {
        let places = (0..width).rev();
        self.bits
            .extend(places.map(|place| number >> place & 1 == 1));
    }

    fn floats(&mut self, numbers: &[f64]) {
        for number in numbers {
            self.field(number.to_bits(), 64);
        }
    }

    /// Eight bits to a byte, the last ones with zeros behind them.
    fn to_bytes(&self) -> Vec<u8> {
        let byte = |bits: &[bool]| {
            let set = bits.iter().enumerate().filter(|(_, bit)| **bit);
            set.map(|(place, _)| 0x80 >> place).sum()
        };
        self.bits.chunks(8).map(byte).collect()
    }
}
