//! Cases of the device: cells at every position, steps of the cursor, and curves of every length.

use crate::case::{Argument, Call, Case};
use crate::random::Random;

/// How many cells are looked at, each at every position; more than 20,000 of them are in range.
/// It has no factor in common with `POSITIONS`, so that numbers one after the other name every
/// cell at every position once.
const CELLS: usize = 32_771;

/// The positions from -1 to 257, and one more for a slot of another length.
const POSITIONS: usize = 260;

/// The lengths of the curves that the program is run on: 0 to 4,100 bytes.
pub const LENGTHS: u64 = 4_101;

/// The length of a text that every curve's text fits.
const TEXT: usize = 7 * (255 * 256 + 1);

/// The ends of the two ranges with what is next to them, and numbers near zero.
const VALUES: [i32; 9] = [-32_768, -32_767, -16_384, -1, 0, 1, 16_383, 32_766, 32_767];
const SLOPES: [i32; 9] = [
    -131_072, -131_071, -65_536, -1, 0, 1, 65_535, 131_070, 131_071,
];
const VALUES_OUTSIDE: [i32; 4] = [i32::MIN, -32_769, 32_768, i32::MAX];
const SLOPES_OUTSIDE: [i32; 4] = [i32::MIN, -131_073, 131_072, i32::MAX];

/// The 32 bits of a whole number with a sign, as an argument holds it.
fn bits(integer: i32) -> usize {
    integer as u32 as usize
}

/// The whole number of an argument.
pub fn integer(argument: &Argument) -> i32 {
    argument.number() as u32 as i32
}

/// Lends a slot of whole numbers with a sign between two guards, which are to stand afterwards.
pub fn as_integers(slot: &mut [usize], call: impl FnOnce(&mut [i32]) -> usize) -> usize {
    let mut items: Vec<i32> = slot.iter().map(|bits| *bits as u32 as i32).collect();
    items.insert(0, i32::MAX);
    items.push(i32::MIN);
    let refusal = call(&mut items[1..=slot.len()]);
    assert_eq!((items[0], items[slot.len() + 1]), (i32::MAX, i32::MIN));
    for (item, integer) in slot.iter_mut().zip(&items[1..]) {
        *item = bits(*integer);
    }
    refusal
}

/// The same of numbers of 32 bits without a sign.
pub fn as_words(slot: &mut [usize], call: impl FnOnce(&mut [u32]) -> usize) -> usize {
    let mut items: Vec<u32> = slot.iter().map(|bits| *bits as u32).collect();
    items.insert(0, 0x1234_5678);
    items.push(0x8765_4321);
    let refusal = call(&mut items[1..=slot.len()]);
    assert_eq!(
        (items[0], items[slot.len() + 1]),
        (0x1234_5678, 0x8765_4321)
    );
    for (item, word) in slot.iter_mut().zip(&items[1..]) {
        *item = *word as usize;
    }
    refusal
}

/// A value or a slope in range: at an end, near zero, or anywhere.
fn in_range(random: &mut Random, ends: &[i32; 9]) -> i32 {
    if random.percent(70) {
        return random.pick(ends);
    }
    let (lowest, highest) = (ends[0], ends[8]);
    lowest + random.below((highest - lowest) as usize + 1) as i32
}

/// A cell in range.
fn good_cell(random: &mut Random) -> [i32; 4] {
    let values = [(); 2].map(|()| in_range(random, &VALUES));
    let slopes = [(); 2].map(|()| in_range(random, &SLOPES));
    [values[0], values[1], slopes[0], slopes[1]]
}

/// Puts one of a cell's numbers out of range.
fn spoil(random: &mut Random, cell: &mut [i32; 4]) {
    match random.below(4) {
        at @ 0..=1 => cell[at] = random.pick(&VALUES_OUTSIDE),
        at => cell[at] = random.pick(&SLOPES_OUTSIDE),
    }
}

/// One of the cells that are looked at; some have a number out of range.
fn cell_by_number(number: usize) -> [i32; 4] {
    let random = &mut Random::new(number as u64);
    let mut cell = good_cell(random);
    if random.percent(38) {
        spoil(random, &mut cell);
    }
    cell
}

/// A cell at a position, with a slot for its value.
fn cell_with(cell: [i32; 4], k: i32, slot: &[usize]) -> Case {
    let numbers = [cell[0], cell[1], cell[2], cell[3], k];
    let numbers = numbers.map(|number| Argument::Number(bits(number)));
    let mut arguments = numbers.to_vec();
    arguments.push(Argument::of_numbers(slot));
    Case::new(Call::CellValue, arguments)
}

/// A cell at a position.
pub fn cell_at(cell: [i32; 4], k: i32) -> Case {
    cell_with(cell, k, &[71])
}

/// A cell at a position, by the number of the case.
pub fn cell_value(number: usize) -> Case {
    let cell = cell_by_number(number % CELLS);
    match number % POSITIONS {
        259 if number % 2 == 0 => cell_with(cell, 128, &[]),
        259 => cell_with(cell, 128, &[71, 72]),
        position => cell_at(cell, position as i32 - 1),
    }
}

/// A step of the cursor.
pub fn step_at(curve: &[u8], n: usize) -> Case {
    let arguments = vec![
        Argument::of_bytes(curve),
        Argument::of_numbers(&[n]),
        Argument::of_numbers(&[73]),
    ];
    Case::new(Call::CursorNext, arguments)
}

/// The bytes of so many cells.
fn curve(random: &mut Random, cells: usize) -> Vec<u8> {
    let numbers = (0..cells).flat_map(|_| good_cell(random));
    numbers.flat_map(i32::to_le_bytes).collect()
}

/// Puts one number of a curve out of range.
fn spoil_curve(random: &mut Random, curve: &mut [u8]) {
    let mut cell = [0; 4];
    spoil(random, &mut cell);
    let at = 16 * random.below(curve.len() / 16);
    let bytes = cell.map(i32::to_le_bytes).concat();
    curve[at..at + 16].copy_from_slice(&bytes);
}

/// A step of the cursor on a curve of a few cells, or none, at any number.
pub fn cursor_next(random: &mut Random) -> Case {
    let cells = random.pick(&[0, 1, 1, 1, 2, 2, 3, 4, 5, 5]);
    let mut curve = curve(random, cells);
    if cells > 0 && random.percent(10) {
        spoil_curve(random, &mut curve);
    }
    if random.percent(6) {
        curve.truncate(curve.len().saturating_sub(random.between(1, 15)));
    }
    let last = 256 * cells;
    let ends = [
        0,
        255,
        256,
        last,
        last.saturating_sub(1),
        last + 1,
        last + 2,
        u32::MAX as usize,
    ];
    let n = if random.percent(35) {
        random.pick(&ends)
    } else {
        random.between(0, last)
    };
    let slot = |random: &mut Random, number: usize| {
        let length = if random.percent(3) {
            random.pick(&[0, 2])
        } else {
            1
        };
        Argument::of_numbers(&vec![number; length])
    };
    let arguments = vec![
        Argument::of_bytes(&curve),
        slot(random, n),
        slot(random, 73),
    ];
    Case::new(Call::CursorNext, arguments)
}

/// What the program prints of a curve of so many bytes.
pub fn device_text(random: &mut Random, length: usize) -> Case {
    let mut bytes = curve(random, length.div_ceil(16));
    if length >= 16 && random.percent(20) {
        spoil_curve(random, &mut bytes);
    }
    bytes.truncate(length);
    device_text_of(&bytes)
}

/// What the program prints of a curve.
pub fn device_text_of(curve: &[u8]) -> Case {
    let arguments = vec![
        Argument::of_bytes(curve),
        Argument::of_bytes(&vec![0; TEXT]),
        Argument::of_numbers(&[0]),
    ];
    Case::new(Call::DeviceText, arguments)
}
