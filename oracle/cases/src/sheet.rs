//! Packed sheets of both editions: written from a grid, its modes and its samples, good and damaged.

use crate::grid::Grid;
use crate::numbers::{list, not_finite};
use crate::random::Random;
use reading::{EDITIONS, EXTEND};

/// Shapes that a sheet may name and that 3 refuses.
const TOO_LARGE: [&[usize]; 5] = [&[25, 41], &[32, 33], &[8, 8, 9], &[4, 4, 4, 5], &[256, 5]];

/// The bits of a sheet, each field as a number and its width.
type Fields = Vec<(u64, usize)>;

/// The edition of the sheet of a number: each has every other one.
pub fn edition_of(number: usize) -> usize {
    EDITIONS[number % EDITIONS.len()]
}

/// The edition that another one is not.
pub fn other_edition(edition: usize) -> usize {
    3 - edition
}

/// The bits of each axis beside its numbers: points, kinds, and in edition 2 the mode.
fn bits_of_an_axis(edition: usize) -> usize {
    if edition == 2 {
        14
    } else {
        12
    }
}

/// The sheet of a number, on a grid: one that the reader accepts.
pub fn good_sheet(random: &mut Random, number: usize, grid: &Grid) -> Vec<u8> {
    pack(&good_fields(random, edition_of(number), grid))
}

fn good_fields(random: &mut Random, edition: usize, grid: &Grid) -> Fields {
    let mut grid = grid.clone();
    let mut samples = list(random, grid.samples());
    if random.percent(12) {
        spoil_for_build(random, &mut grid, &mut samples);
    }
    let modes = grid.modes(random);
    fields(edition, &grid, &modes, &samples)
}

/// Faults that the reader hands on and the build refuses.
fn spoil_for_build(random: &mut Random, grid: &mut Grid, samples: &mut [f64]) {
    let knot = random.below(grid.knots.len());
    match random.below(4) {
        0 => grid.knots[knot] = not_finite(random),
        1 => samples[random.below(samples.len())] = not_finite(random),
        2 => grid.knots[knot] = grid.knots[0],
        _ => grid.kinds = [0; 8],
    }
}

fn fields(edition: usize, grid: &Grid, modes: &[u8; 4], samples: &[f64]) -> Fields {
    let mut fields = vec![(edition as u64, 4), (grid.axes as u64, 3)];
    let mut knots = grid.knots.iter();
    for axis in 0..grid.axes {
        let ends = [2 * axis, 2 * axis + 1];
        fields.push((grid.points[axis] as u64 - 1, 8));
        fields.extend(ends.map(|end| (u64::from(grid.kinds[end]), 2)));
        if edition == 2 {
            fields.push((u64::from(modes[axis]), 2));
        }
        let numbered = ends
            .into_iter()
            .filter(|end| matches!(grid.kinds[*end], 1 | 2));
        fields.extend(numbered.map(|end| (grid.values[end].to_bits(), 64)));
        let own = knots.by_ref().take(grid.points[axis]);
        fields.extend(own.map(|knot| (knot.to_bits(), 64)));
    }
    fields.extend(samples.iter().map(|sample| (sample.to_bits(), 64)));
    fields
}

/// The fields one after the other, most significant bit first, and zero bits to
/// the byte.
fn pack(fields: &Fields) -> Vec<u8> {
    let mut bytes = Vec::new();
    let mut bits = 0;
    for (number, width) in fields {
        for place in (0..*width).rev() {
            if bits % 8 == 0 {
                bytes.push(0);
            }
            let bit = (number >> place & 1) as u8;
            bytes[bits / 8] |= bit << (7 - bits % 8);
            bits += 1;
        }
    }
    bytes
}

/// How many bytes the sheet of axes in an edition has.
pub fn length_of(edition: usize, points: &[usize], kinds: &[u8]) -> usize {
    let numbered = kinds.iter().filter(|kind| matches!(kind, 1 | 2)).count();
    let (knots, samples): (usize, usize) = (points.iter().sum(), points.iter().product());
    let bits = 7 + bits_of_an_axis(edition) * points.len() + 64 * (numbered + knots + samples);
    bits.div_ceil(8)
}

/// The example sheet in an edition: one natural axis, extended, with knots and samples 0 and 1.
pub fn example_sheet(edition: usize) -> Vec<u8> {
    let line = [0.0, 1.0];
    let grid = Grid {
        axes: 1,
        points: [2, 0, 0, 0],
        kinds: [2, 2, 0, 0, 0, 0, 0, 0],
        values: [0.0; 8],
        knots: line.to_vec(),
    };
    pack(&fields(edition, &grid, &[EXTEND; 4], &line))
}

/// A sheet of edition 1 with two points on each axis, all periodic: no accepted one of so many axes
/// is shorter. It has 35 bytes on one axis, 68 on two.
pub fn periodic_sheet(axes: usize) -> Vec<u8> {
    let grid = Grid {
        axes,
        points: [2; 4],
        kinds: [3; 8],
        values: [0.0; 8],
        knots: [0.0, 1.0].repeat(axes),
    };
    let samples: Vec<f64> = (0..grid.samples()).map(|sample| sample as f64).collect();
    pack(&fields(1, &grid, &[EXTEND; 4], &samples))
}

/// The example in each edition: cut at every length, then with every single bit damaged, and then
/// with anything in the place of its kinds and its mode, whole and cut behind these.
pub fn swept_sheet(number: usize) -> Option<Vec<u8>> {
    let mut bytes = example_sheet(edition_of(number));
    let number = number / EDITIONS.len();
    let (cuts, bits) = (bytes.len() + 1, 8 * bytes.len());
    if number < cuts {
        bytes.truncate(number);
    } else if number < cuts + bits {
        let bit = number - cuts;
        bytes[bit / 8] ^= 0x80 >> (bit % 8);
    } else if number < cuts + bits + 2 * KINDS_AND_MODES {
        let number = number - cuts - bits;
        set_kinds_and_mode(&mut bytes, (number % KINDS_AND_MODES) as u8);
        if number >= KINDS_AND_MODES {
            bytes.truncate(3);
        }
    } else {
        return None;
    }
    Some(bytes)
}

/// How many there are of two kinds and a mode, which have two bits each.
const KINDS_AND_MODES: usize = 64;

/// Stores six bits behind the first 15, where the kinds of the first axis stand and in edition 2
/// its mode.
fn set_kinds_and_mode(bytes: &mut [u8], bits: u8) {
    bytes[1] = bytes[1] & 0xFE | bits >> 5;
    bytes[2] = bits << 3 | bytes[2] & 0x07;
}

/// How many sheets of up to two bytes there are.
pub const SHORT_SHEETS: u64 = 1 + 256 + 65_536;

/// The sheet of up to two bytes of a number; after the last they begin anew.
pub fn short_sheet(number: u64) -> Vec<u8> {
    match number % SHORT_SHEETS {
        0 => Vec::new(),
        number @ 1..=256 => vec![(number - 1) as u8],
        number => ((number - 257) as u16).to_be_bytes().to_vec(),
    }
}

/// The sheet of a number, on a grid, with a fault; some faults leave a sheet that is still good.
pub fn damaged_sheet(random: &mut Random, number: usize, grid: &Grid) -> Vec<u8> {
    let edition = edition_of(number);
    let mut fields = good_fields(random, edition, grid);
    match random.below(14) {
        0..=2 => {
            replace_small_field(random, &mut fields);
            pack(&fields)
        }
        3..=4 => too_large_sheet(random, edition),
        5..=7 => cut(pack(&fields), number / EDITIONS.len()),
        8..=9 => flip_bits(random, pack(&fields)),
        10 => mark_last_bits(random, pack(&fields)),
        11 => lengthen(random, pack(&fields)),
        12 if edition == 2 => {
            spoil_a_mode(random, &mut fields);
            pack(&fields)
        }
        _ => {
            // The bits of one edition in the words of the other.
            fields[0].0 = other_edition(edition) as u64;
            pack(&fields)
        }
    }
}

/// Sets the bits of a mode to 3: as they stand, behind kinds that do not go together, or with nothing
/// behind them.
fn spoil_a_mode(random: &mut Random, fields: &mut Fields) {
    // A mode is the third field of two bits in a row.
    let is_mode = |at: &usize| fields[at - 2..=*at].iter().all(|(_, width)| *width == 2);
    let modes: Vec<usize> = (4..fields.len()).filter(is_mode).collect();
    let at = random.pick(&modes);
    fields[at].0 = 3;
    match random.below(4) {
        0 => (fields[at - 2].0, fields[at - 1].0) = random.pick(&[(3, 0), (3, 2), (1, 3)]),
        1 => fields.truncate(at + 1),
        _ => (),
    }
}

/// Gives edition, axes, points, a kind or a mode another number.
fn replace_small_field(random: &mut Random, fields: &mut Fields) {
    let small: Vec<usize> = (0..fields.len()).filter(|at| fields[*at].1 < 64).collect();
    let at = random.pick(&small);
    let limit = 1 << fields[at].1;
    let any = random.below(limit);
    fields[at].0 = random.pick(&[0, limit - 1, any]) as u64;
}

fn too_large_sheet(random: &mut Random, edition: usize) -> Vec<u8> {
    let shape = random.pick(&TOO_LARGE);
    let grid = Grid::of_shape(random, shape);
    let count = random.pick(&[0, 1, grid.samples()]);
    let modes = grid.modes(random);
    pack(&fields(edition, &grid, &modes, &list(random, count)))
}

/// Cuts at a length that goes through all of them as the cases are counted.
fn cut(mut bytes: Vec<u8>, number: usize) -> Vec<u8> {
    bytes.truncate(number % bytes.len());
    bytes
}

fn flip_bits(random: &mut Random, mut bytes: Vec<u8>) -> Vec<u8> {
    for _ in 0..random.between(1, 4) {
        let near_front = random.percent(50);
        let range = if near_front {
            bytes.len().min(4)
        } else {
            bytes.len()
        };
        bytes[random.below(range)] ^= 1 << random.below(8);
    }
    bytes
}

fn mark_last_bits(random: &mut Random, mut bytes: Vec<u8>) -> Vec<u8> {
    let last = bytes.len() - 1;
    bytes[last] |= 1 << random.below(8);
    bytes
}

/// Adds bytes behind the sheet; now and then more than may be read.
fn lengthen(random: &mut Random, mut bytes: Vec<u8>) -> Vec<u8> {
    let length = match random.below(40) {
        0 => random.pick(&[65_535, 65_536, 65_537, 70_000]),
        _ => bytes.len() + random.between(1, 9),
    };
    let filling = random.pick(&[0, 0, 1, 0x80, 0xFF]);
    bytes.resize(length.max(bytes.len()), filling);
    bytes
}
