//! Floats of every sort.

use crate::random::Random;

/// Finite numbers at the edges of the format.
const EDGES: [f64; 10] = [
    0.0,
    -0.0,
    5e-324,
    -5e-324,
    f64::MIN_POSITIVE,
    2.225073858507201e-308,
    f64::MAX,
    -f64::MAX,
    1e308,
    f64::EPSILON,
];

/// A power of two that is a number of the format, down to the least one.
pub fn power_of_two(exponent: i32) -> f64 {
    let pattern = match exponent {
        -1074..=-1023 => 1 << (exponent + 1074),
        -1022..=1023 => ((exponent + 1023) as u64) << 52,
        _ => panic!("two to the {exponent} is no number of the format"),
    };
    f64::from_bits(pattern)
}

/// A number between -1 and 1 with all its digits.
fn within_one(random: &mut Random) -> f64 {
    let digits = random.word() >> 11;
    digits as f64 / (1u64 << 52) as f64 - 1.0
}

/// A number as measured data have them.
pub fn ordinary(random: &mut Random) -> f64 {
    match random.below(10) {
        0..=3 => random.below(17) as f64 - 8.0,
        4..=5 => (random.below(65) as f64 - 32.0) / 8.0,
        _ => 10.0 * within_one(random),
    }
}

/// A finite number with any bits.
pub fn any_finite(random: &mut Random) -> f64 {
    let number = f64::from_bits(random.word());
    if number.is_finite() {
        number
    } else {
        random.pick(&EDGES)
    }
}

/// A number below the normal ones, or a zero of either sign.
pub fn subnormal(random: &mut Random) -> f64 {
    let digits = random.word() >> random.between(12, 62);
    f64::from_bits(digits | (random.word() & (1 << 63)))
}

/// A number so large that few operations on it stay finite.
pub fn huge(random: &mut Random) -> f64 {
    within_one(random) * 1.7e308
}

/// A number from which a step to another finite number can overflow.
pub fn far_below_zero(random: &mut Random) -> f64 {
    f64::MAX * (0.45 * within_one(random) - 0.5)
}

/// A finite number at an edge of the format.
pub fn edge(random: &mut Random) -> f64 {
    random.pick(&EDGES)
}

/// An infinity or a NaN.
pub fn not_finite(random: &mut Random) -> f64 {
    let payload = f64::from_bits(0xFFF8_0000_0000_0000 | random.word() >> 14);
    random.pick(&[f64::INFINITY, f64::NEG_INFINITY, f64::NAN, payload])
}

/// What outputs and scratch are filled with: numbers that no rule gives.
pub fn fill(random: &mut Random, length: usize, with_nan: bool) -> Vec<f64> {
    let first: u64 = if with_nan && random.percent(50) {
        0x7FF8_5A5A_0000_0000
    } else {
        0x5A5A_5A5A_0000_0000
    };
    (0..length as u64)
        .map(|place| f64::from_bits(first + place))
        .collect()
}

/// Numbers of one sort; most often ordinary ones.
pub fn list(random: &mut Random, length: usize) -> Vec<f64> {
    let sort: fn(&mut Random) -> f64 = match random.below(100) {
        0..=79 => ordinary,
        80..=85 => subnormal,
        86..=88 => edge,
        89..=91 => any_finite,
        92..=93 => huge,
        94..=96 => |random| random.pick(&[0.0, -0.0]),
        _ => |_| 3.25,
    };
    (0..length).map(|_| sort(random)).collect()
}
