//! Bit fields of a sheet, most significant first.

use crate::refusals::{require, Refusal};

/// Bytes with the number of bits that were taken.
pub struct Bits<'a> {
    bytes: &'a [u8],
    taken: usize,
}

impl<'a> Bits<'a> {
    /// Bytes with nothing taken.
    pub fn new(bytes: &'a [u8]) -> Self {
        Self { bytes, taken: 0 }
    }

    /// How many bits are left.
    pub fn remaining(&self) -> usize {
        8 * self.bytes.len() - self.taken
    }

    /// The next field as a number, or 11 where it needs more bits than remain.
    pub fn field(&mut self, width: usize) -> Result<u64, Refusal> {
        require(width <= self.remaining(), 11)?;
        let mut number = 0;
        for _ in 0..width {
            number = number << 1 | self.next_bit();
        }
        Ok(number)
    }

    /// The next field as a float; every NaN pattern is read as the one NaN.
    pub fn float(&mut self) -> Result<f64, Refusal> {
        let number = f64::from_bits(self.field(64)?);
        Ok(if number.is_nan() { f64::NAN } else { number })
    }

    /// So many floats one after the other.
    pub fn floats(&mut self, count: usize) -> Result<Vec<f64>, Refusal> {
        (0..count).map(|_| self.float()).collect()
    }

    fn next_bit(&mut self) -> u64 {
        let byte = self.bytes[self.taken / 8];
        let bit = byte >> (7 - self.taken % 8) & 1;
        self.taken += 1;
        u64::from(bit)
    }
}
