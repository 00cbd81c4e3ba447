//! The one call for firmware: its answers, its refusals and their order.

use reading::{surface, write, EXTEND, HOLD, REFUSE, REFUSED};

const MINUS_ZERO: u64 = 1 << 63;

/// What a sheet is written from: axes that are all alike, and have the knots 0, 1 and so on.
struct Parts<'a> {
    points: &'a [usize],
    kinds: [u8; 2],
    modes: [u8; 4],
    samples: Vec<f64>,
}

/// Natural axes of these points, extended, with samples that count up.
fn natural(points: &[usize]) -> Parts<'_> {
    let count = points.iter().product();
    Parts {
        points,
        kinds: [2; 2],
        modes: [EXTEND; 4],
        samples: (0..count).map(|sample: usize| sample as f64).collect(),
    }
}

/// The sheet of parts that the writer takes, in edition 2.
fn sheet(parts: &Parts) -> Vec<u8> {
    let axes = parts.points.len();
    let mut points = [0; 4];
    points[..axes].copy_from_slice(parts.points);
    let knots = parts.points.iter().flat_map(|count| 0..*count);
    let knots: Vec<f64> = knots.map(|knot| knot as f64).collect();
    let kinds: Vec<u8> = [parts.kinds; 4].concat();
    let (mut bytes, mut length) = (vec![0; 20_000], [0]);
    let refusal = write(
        axes,
        &points,
        &kinds,
        &[0.0; 8],
        &parts.modes,
        &knots,
        &parts.samples,
        2,
        &mut bytes,
        &mut length,
    );
    assert_eq!(refusal, 0);
    bytes.truncate(length[0]);
    bytes
}

fn refused(number: u64) -> u64 {
    REFUSED + number
}

/// The answer at some coordinates, with the pattern 0 behind them.
fn at(sheet: &[u8], coordinates: &[f64]) -> u64 {
    let mut patterns = [0; 4];
    for (pattern, coordinate) in patterns.iter_mut().zip(coordinates) {
        *pattern = coordinate.to_bits();
    }
    surface(sheet, patterns)
}

#[test]
fn the_examples() {
    let line = sheet(&natural(&[2]));
    assert_eq!(at(&line, &[0.5]), 0.5f64.to_bits());
    let mut square = natural(&[2, 2]);
    square.samples = vec![0.0, 0.0, 0.0, 1.0];
    assert_eq!(at(&sheet(&square), &[0.5, 0.5]), 0.25f64.to_bits());
    assert_eq!(surface(&[], [0; 4]), refused(11));
}

/// Each axis in its own mode, which stands in the sheet.
#[test]
fn outside_as_the_sheet_says() {
    let mut line = natural(&[2]);
    let mut at_two = |mode| {
        line.modes[0] = mode;
        at(&sheet(&line), &[2.0])
    };
    assert_eq!(at_two(EXTEND), 2.0f64.to_bits());
    assert_eq!(at_two(HOLD), 1.0f64.to_bits());
    assert_eq!(at_two(REFUSE), refused(18));
    let mut square = natural(&[2, 2]);
    square.modes = [HOLD, REFUSE, EXTEND, EXTEND];
    let square = sheet(&square);
    assert_eq!(at(&square, &[5.0, 1.0]), 3.0f64.to_bits());
    assert_eq!(at(&square, &[1.0, 5.0]), refused(18));
}

#[test]
fn a_tensor_of_512_numbers_and_no_more() {
    for points in [&[256][..], &[16, 8], &[4, 4, 4], &[2, 2, 2, 4]] {
        assert_eq!(at(&sheet(&natural(points)), &[0.0; 4]), 0, "{points:?}");
    }
    for points in [&[3, 43][..], &[2, 3, 11], &[2, 2, 3, 3]] {
        let sheet = sheet(&natural(points));
        assert_eq!(at(&sheet, &[0.0; 4]), refused(16), "{points:?}");
        // Behind the faults of the sheet, and before an unused coordinate.
        let longer = [&sheet[..], &[0]].concat();
        assert_eq!(surface(&longer, [1; 4]), refused(14));
        assert_eq!(surface(&sheet[..sheet.len() - 1], [1; 4]), refused(11));
        assert_eq!(surface(&sheet, [1; 4]), refused(16));
    }
}

#[test]
fn an_unused_coordinate_is_the_pattern_0() {
    let line = sheet(&natural(&[2]));
    for pattern in [1, MINUS_ZERO, REFUSED, 1.0f64.to_bits()] {
        for axis in 1..4 {
            let mut patterns = [0; 4];
            patterns[axis] = pattern;
            assert_eq!(surface(&line, patterns), refused(17));
        }
    }
    assert_eq!(surface(&line, [MINUS_ZERO, 0, 0, 0]), 0);
    // Before the faults of the build and of the query.
    let few = too_few_points();
    assert_eq!(surface(&few, [0; 4]), refused(9));
    assert_eq!(surface(&few, [0, 1, 0, 0]), refused(17));
    assert_eq!(surface(&line, [f64::NAN.to_bits(), 1, 0, 0]), refused(17));
}

/// The example with NotAKnot at both ends, for which its points are too few.
fn too_few_points() -> Vec<u8> {
    let mut sheet = sheet(&natural(&[2]));
    // The kinds stand in bits 15 to 18; the values of both ends, 16 bytes of zeros, go.
    sheet[1] &= 0xFE;
    sheet[2] &= 0x1F;
    sheet.drain(3..19);
    sheet
}

/// What the build refuses is not asked for; then 7 for a coordinate, 18, and 10.
#[test]
fn the_query_comes_last() {
    let no_number = f64::NAN.to_bits();
    let mut steep = natural(&[2]);
    steep.samples = vec![-1e308, 1e308];
    assert_eq!(surface(&sheet(&steep), [no_number, 0, 0, 0]), refused(10));
    let mut square = natural(&[2, 2]);
    square.modes = [REFUSE; 4];
    let square = sheet(&square);
    let far = 5.0f64.to_bits();
    assert_eq!(surface(&square, [far, no_number, 0, 0]), refused(7));
    assert_eq!(surface(&square, [far, 0, 0, 0]), refused(18));
    let line = sheet(&natural(&[2]));
    assert_eq!(at(&line, &[1e300]), refused(10));
}

/// Every NaN is refused alike, whatever its payload and sign; and so is an infinity.
#[test]
fn no_payload_is_handed_on() {
    let line = sheet(&natural(&[2]));
    let patterns = [
        0x7FF8_0000_0000_0000,
        0x7FF8_0000_0000_0009,
        0x7FF0_0000_0000_0001,
        0xFFF4_0000_0000_0000,
        u64::MAX,
        f64::INFINITY.to_bits(),
        f64::NEG_INFINITY.to_bits(),
    ];
    for pattern in patterns {
        assert_eq!(surface(&line, [pattern, 0, 0, 0]), refused(7));
    }
}
