//! The writer of packed sheets: bytes that are written out here, and both round trips.

use reading::{read, write, BUFFER, EDITIONS, EXTEND, HOLD, REFUSE};

const FILL: u8 = 0x96;

/// What a sheet is written from, and the edition. Past the axes in use stands what no sheet has.
#[derive(Clone, PartialEq, Debug)]
struct Parts {
    axes: usize,
    points: [usize; 4],
    kinds: [u8; 8],
    values: [f64; 8],
    modes: [u8; 4],
    knots: Vec<f64>,
    samples: Vec<f64>,
    edition: usize,
}

/// The example of one natural axis, in edition 1.
fn example() -> Parts {
    Parts {
        axes: 1,
        points: [2, 0, 999, usize::MAX],
        kinds: [2, 2, 9, 9, 9, 9, 9, 9],
        values: [0.0, 0.0, f64::NAN, f64::NAN, 1.0, 1.0, 1.0, 1.0],
        modes: [EXTEND, HOLD, 3, 255],
        knots: vec![0.0, 1.0],
        samples: vec![0.0, 1.0],
        edition: 1,
    }
}

/// The same axis in edition 2, in a mode.
fn in_mode(mode: u8) -> Parts {
    let mut parts = example();
    parts.modes[0] = mode;
    parts.edition = 2;
    parts
}

/// A head of so many bits, six numbers, and zero bits to the byte.
fn packed(head: u64, width: usize) -> Vec<u8> {
    let one = 1.0f64.to_bits();
    let bits_of = |number: u64, width| (0..width).rev().map(move |place| number >> place & 1);
    let mut bits: Vec<u64> = bits_of(head, width).collect();
    for number in [0, 0, 0, one, 0, one] {
        bits.extend(bits_of(number, 64));
    }
    bits.resize(408, 0);
    let byte = |bits: &[u64]| bits.iter().fold(0, |byte, bit| byte << 1 | bit) as u8;
    bits.chunks(8).map(byte).collect()
}

/// The example's sheet: 4 bits 1, 3 bits 1, 8 bits 1, 2 bits 2, 2 bits 2, and six numbers.
fn example_sheet() -> Vec<u8> {
    packed(0b0001_001_00000001_10_10, 19)
}

/// The same in edition 2: 4 bits 2, and two bits more, the mode, after the upper kind.
fn sheet_in_mode(mode: u8) -> Vec<u8> {
    packed(0b0010_001_00000001_10_10_00 | u64::from(mode), 21)
}

/// The refusal, the length, and the buffer afterwards.
fn written(parts: &Parts, room: usize) -> (usize, usize, Vec<u8>) {
    let (mut bytes, mut length) = (vec![FILL; room], [9]);
    let refusal = write(
        parts.axes,
        &parts.points,
        &parts.kinds,
        &parts.values,
        &parts.modes,
        &parts.knots,
        &parts.samples,
        parts.edition,
        &mut bytes,
        &mut length,
    );
    (refusal, length[0], bytes)
}

fn refusal(parts: &Parts) -> usize {
    let (refusal, length, bytes) = written(parts, 500);
    if refusal != 0 {
        assert_eq!(length, 0);
        assert!(bytes.iter().all(|byte| *byte == FILL));
    }
    refusal
}

/// The parts of a sheet, or its refusal. Past the axes in use stand zeros.
fn parts_of(sheet: &[u8]) -> Result<Parts, usize> {
    let (mut knots, mut samples) = (vec![0.0; BUFFER], vec![0.0; BUFFER]);
    let (mut axes, mut points, mut kinds, mut values) = ([9], [9; 4], [9; 8], [9.0; 8]);
    let (mut modes, mut edition) = ([9; 4], [9]);
    let refusal = read(
        sheet,
        &mut knots,
        &mut samples,
        &mut axes,
        &mut points,
        &mut kinds,
        &mut values,
        &mut modes,
        &mut edition,
    );
    if refusal != 0 {
        return Err(refusal);
    }
    knots.truncate(points[..axes[0]].iter().sum());
    samples.truncate(points[..axes[0]].iter().product());
    Ok(Parts {
        axes: axes[0],
        points,
        kinds,
        values,
        modes,
        knots,
        samples,
        edition: edition[0],
    })
}

#[test]
fn the_example_is_written() {
    let sheet = example_sheet();
    assert_eq!(written(&example(), 51), (0, 51, sheet.clone()));
    let mut longer = sheet;
    longer.extend([FILL; 9]);
    assert_eq!(written(&example(), 60), (0, 51, longer));
}

#[test]
fn the_example_is_written_in_edition_2() {
    for mode in [EXTEND, HOLD, REFUSE] {
        let sheet = sheet_in_mode(mode);
        assert_eq!(written(&in_mode(mode), 51), (0, 51, sheet));
    }
    let bytes = [0x22, 0x03, 0x40, 0, 0, 0, 0, 0, 0, 0, 0, 0, 0, 0, 0, 0];
    assert_eq!(&sheet_in_mode(EXTEND)[..16], &bytes);
}

#[test]
fn a_buffer_that_is_too_short_is_left() {
    for room in [0, 1, 50] {
        assert_eq!(written(&example(), room), (15, 0, vec![FILL; room]));
    }
}

#[test]
fn sheets_are_written_back() {
    let by_hand = include_bytes!("../../../tests/sheet_by_hand/two_axes.sheet");
    let gain = include_bytes!("../../../examples/gain.sheet");
    let in_modes = [EXTEND, HOLD, REFUSE].map(sheet_in_mode);
    let others = [example_sheet(), by_hand.to_vec(), gain.to_vec()];
    for sheet in others.into_iter().chain(in_modes) {
        let parts = parts_of(&sheet).unwrap();
        let length = sheet.len();
        assert_eq!(written(&parts, length), (0, length, sheet));
    }
}

#[test]
fn what_was_written_is_read() {
    let mut parts = Parts {
        axes: 3,
        points: [2, 3, 4, 0],
        kinds: [1, 2, 3, 3, 0, 0, 0, 0],
        values: [-0.0, 5e-324, 0.0, 0.0, 0.0, 0.0, 0.0, 0.0],
        modes: [HOLD, EXTEND, REFUSE, EXTEND],
        knots: vec![-1.5, 2.0, 0.0, 1.0, 4.0, -3.0, -2.0, 7.0, 8.0],
        samples: (0..24)
            .map(|at| f64::from_bits(0x0123_4567_89AB_CDEF << (at % 7)))
            .collect(),
        edition: 2,
    };
    parts.samples.iter_mut().for_each(|sample| {
        if !sample.is_finite() {
            *sample = -f64::MAX;
        }
    });
    let (refusal, length, bytes) = written(&parts, 400);
    assert_eq!(refusal, 0);
    assert_eq!(parts_of(&bytes[..length]), Ok(parts.clone()));
    parts.modes = [EXTEND; 4];
    for edition in EDITIONS {
        parts.edition = edition;
        let (refusal, length, bytes) = written(&parts, 400);
        assert_eq!(refusal, 0);
        assert_eq!(parts_of(&bytes[..length]), Ok(parts.clone()));
    }
}

/// 12 and 23 stand between 9 and 15; a mode that there is not stands after kinds that there are
/// not, before 7.
#[test]
fn an_edition_is_refused_between_fewness_and_the_buffer() {
    let with = |edition: usize, mode: u8, room: usize| {
        let mut parts = in_mode(mode);
        parts.edition = edition;
        written(&parts, room).0
    };
    for edition in [0, 3, 15, 17, 18, 257, usize::MAX] {
        assert_eq!(with(edition, HOLD, 51), 12);
        assert_eq!(with(edition, EXTEND, 0), 12);
    }
    for mode in [HOLD, REFUSE] {
        assert_eq!(with(1, mode, 51), 23);
        assert_eq!(with(1, mode, 0), 23);
        assert_eq!(with(2, mode, 50), 15);
    }
    assert_eq!(with(1, 3, 51), 22);
    let mut parts = in_mode(HOLD);
    parts.edition = 1;
    parts.kinds[..2].fill(0);
    assert_eq!(refusal(&parts), 9);
    parts.edition = 3;
    assert_eq!(refusal(&parts), 9);
    (parts.modes[0], parts.samples[0]) = (255, f64::NAN);
    assert_eq!(refusal(&parts), 22);
    parts.kinds[0] = 3;
    assert_eq!(refusal(&parts), 13);
}

#[test]
fn refused_as_a_build_is() {
    let with = |alter: fn(&mut Parts)| {
        let mut parts = example();
        alter(&mut parts);
        refusal(&parts)
    };
    assert_eq!(with(|_| ()), 0);
    assert_eq!(with(|parts| parts.axes = 5), 1);
    assert_eq!(with(|parts| parts.points[0] = 257), 2);
    assert_eq!(
        with(|parts| (parts.axes, parts.points) = (2, [25, 41, 0, 0])),
        3
    );
    assert_eq!(with(|parts| parts.knots.push(2.0)), 4);
    assert_eq!(with(|parts| parts.samples.push(2.0)), 4);
    assert_eq!(with(|parts| parts.kinds[0] = 3), 13);
    assert_eq!(with(|parts| parts.values[1] = f64::NAN), 7);
    assert_eq!(with(|parts| parts.samples[1] = f64::INFINITY), 7);
    assert_eq!(with(|parts| parts.knots[1] = 0.0), 8);
    assert_eq!(with(|parts| parts.kinds[..2].fill(0)), 9);
}

#[test]
fn a_short_buffer_is_refused_last() {
    let mut parts = example();
    parts.kinds[..2].fill(0);
    assert_eq!(written(&parts, 0).0, 9);
    parts.kinds[..2].copy_from_slice(&[3, 0]);
    assert_eq!(written(&parts, 0).0, 13);
}

/// The reader hands a NaN on, and the writer refuses it: no sheet with one is written back.
#[test]
fn a_sheet_with_no_number_is_read_and_not_written() {
    let mut sheet = example_sheet();
    // The last sample, 64 bits before the five that fill the byte, becomes all ones.
    sheet[42] |= 0x1F;
    sheet[43..50].fill(0xFF);
    sheet[50] |= 0xE0;
    let parts = parts_of(&sheet).unwrap();
    assert!(parts.samples[1].is_nan());
    assert_eq!(written(&parts, 51), (7, 0, vec![FILL; 51]));
}

#[test]
fn the_slot_has_its_length() {
    for slots in [0, 2] {
        let parts = example();
        let (mut bytes, mut length) = ([FILL; 51], vec![9; slots]);
        let refusal = write(
            1,
            &parts.points,
            &parts.kinds,
            &parts.values,
            &parts.modes,
            &parts.knots,
            &parts.samples,
            1,
            &mut bytes,
            &mut length,
        );
        assert_eq!((refusal, bytes), (4, [FILL; 51]));
        assert_eq!(length, vec![9; slots]);
    }
}
