//! Sheets written field by field.

/// A number and its width in bits.
pub type Field = (u64, usize);

pub const ZERO: Field = (0, 64);
pub const ONE: Field = (0x3FF0_0000_0000_0000, 64);

/// Fields one after the other, and zero bits to the byte.
pub fn packed(fields: &[Field]) -> Vec<u8> {
    let bits_of = |(number, width): &Field| {
        let (number, width) = (*number, *width);
        (0..width).rev().map(move |place| number >> place & 1)
    };
    let mut bits: Vec<u64> = fields.iter().flat_map(bits_of).collect();
    bits.resize(bits.len().next_multiple_of(8), 0);
    let byte = |bits: &[u64]| bits.iter().fold(0, |byte, bit| byte << 1 | bit) as u8;
    bits.chunks(8).map(byte).collect()
}
