//! A packed sheet, written from axes, knots and samples.

use crate::hullashlar::Axes;

/// The fields one after the other, most significant bit first, and zero bits to the byte.
pub fn packed(edition: usize, axes: &Axes, knots: &[f64], samples: &[f64]) -> Vec<u8> {
    let mut sheet = Sheet::default();
    sheet.field(edition as u64, 4);
    sheet.field(axes.count as u64, 3);
    let mut rest = knots;
    for axis in 0..axes.count {
        let (own, behind) = rest.split_at(axes.points[axis]);
        sheet.head(edition, axes, axis);
        sheet.values(axes, axis);
        sheet.floats(own);
        rest = behind;
    }
    sheet.floats(samples);
    sheet.bytes
}

#[derive(Default)]
struct Sheet {
    bytes: Vec<u8>,
    bits: usize,
}

impl Sheet {
    /// The points and the kinds of an axis, and in edition 2 its mode.
    fn head(&mut self, edition: usize, axes: &Axes, axis: usize) {
        self.field(axes.points[axis] as u64 - 1, 8);
        for end in [2 * axis, 2 * axis + 1] {
            self.field(u64::from(axes.kinds[end]), 2);
        }
        if edition == 2 {
            self.field(u64::from(axes.modes[axis]), 2);
        }
    }

    /// The values of the ends that take one.
    fn values(&mut self, axes: &Axes, axis: usize) {
        for end in [2 * axis, 2 * axis + 1] {
            if matches!(axes.kinds[end], 1 | 2) {
                self.floats(&[axes.values[end]]);
            }
        }
    }

    fn floats(&mut self, numbers: &[f64]) {
        for number in numbers {
            self.field(number.to_bits(), 64);
        }
    }

    fn field(&mut self, number: u64, width: usize) {
        for place in (0..width).rev() {
            if self.bits.is_multiple_of(8) {
                self.bytes.push(0);
            }
            let bit = (number >> place & 1) as u8;
            self.bytes[self.bits / 8] |= bit << (7 - self.bits % 8);
            self.bits += 1;
        }
    }
}
