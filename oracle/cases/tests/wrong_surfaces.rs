//! Surfaces for firmware with one deliberate error each: the cases find them.

mod altered;

use altered::differences;
use cases::{Argument, Calls, Case, Kind, Reading};
use reading::{read, BUFFER, REFUSED};

/// A surface that is written anew from what it is given and from the right answer.
struct Wrong(fn(given: &Case, right: u64) -> u64);

impl Calls for Wrong {
    fn run(&self, case: &mut Case) -> Option<usize> {
        let right = returned(case);
        Some((self.0)(case, right) as usize)
    }
}

fn returned(case: &Case) -> u64 {
    let answer = Reading.run(&mut case.clone());
    answer.expect("the reading answers all") as u64
}

fn is_found(wrong: fn(&Case, u64) -> u64) -> bool {
    differences(&Wrong(wrong), Kind::Surface) > 0
}

fn pattern(case: &Case, axis: usize) -> u64 {
    case.arguments[1 + axis].number() as u64
}

/// The case with some patterns in the place of others.
fn with(case: &Case, other: impl Fn(u64) -> u64) -> Case {
    let mut case = case.clone();
    for axis in 0..4 {
        let pattern = other(pattern(&case, axis));
        case.arguments[1 + axis] = Argument::Number(pattern as usize);
    }
    case
}

#[test]
fn a_surface_that_is_not_altered_is_the_same() {
    assert!(!is_found(|_, right| right));
}

#[test]
fn minus_zero_as_an_unused_coordinate_is_found() {
    assert!(is_found(|given, right| {
        if right == REFUSED + 17 {
            returned(&with(given, |pattern| match pattern {
                0x8000_0000_0000_0000 => 0,
                pattern => pattern,
            }))
        } else {
            right
        }
    }));
}

#[test]
fn a_refusal_without_its_number_is_found() {
    assert!(is_found(|_, right| {
        if right > REFUSED && right < REFUSED + 24 {
            REFUSED
        } else {
            right
        }
    }));
}

/// How many numbers the tensor of a sheet has that is read.
fn tensor_length(case: &Case) -> Option<usize> {
    let (mut axes, mut points) = ([0], [0; 4]);
    let refusal = read(
        case.argument("bytes").bytes(),
        &mut [0.0; BUFFER],
        &mut [0.0; BUFFER],
        &mut axes,
        &mut points,
        &mut [0; 8],
        &mut [0.0; 8],
        &mut [0; 4],
        &mut [0],
    );
    let samples: usize = points[..axes[0]].iter().product();
    (refusal == 0).then_some(samples << axes[0])
}

#[test]
fn another_limit_of_the_tensor_is_found() {
    assert!(is_found(|given, right| match tensor_length(given) {
        Some(512) => REFUSED + 16,
        _ => right,
    }));
    assert!(is_found(|given, right| match tensor_length(given) {
        Some(516) => 0,
        _ => right,
    }));
}

/// 17 behind what the build and the query refuse.
#[test]
fn an_unused_coordinate_that_is_looked_at_last_is_found() {
    assert!(is_found(|given, right| {
        if right != REFUSED + 17 {
            return right;
        }
        let mut asked = given.clone();
        for axis in (0..4).rev() {
            asked.arguments[1 + axis] = Argument::Number(0);
            let other = returned(&asked);
            if other != REFUSED + 17 {
                return if other > REFUSED { other } else { right };
            }
        }
        right
    }));
}

/// 16 or 17 in the place of a fault at the end of a sheet.
#[test]
fn limits_before_the_end_of_the_sheet_are_found() {
    let behind = |given: &Case, right: u64, number: u64| {
        if right != REFUSED + 14 {
            return right;
        }
        // The sheet without what follows it: as many bytes as are not refused by 14.
        let bytes = given.argument("bytes").bytes();
        for length in (0..bytes.len()).rev().take(12) {
            let mut cut = given.clone();
            cut.arguments[0] = Argument::of_bytes(&bytes[..length]);
            if returned(&cut) == REFUSED + number {
                return REFUSED + number;
            }
        }
        right
    };
    struct Behind<F>(F, u64);
    impl<F: Fn(&Case, u64, u64) -> u64> Calls for Behind<F> {
        fn run(&self, case: &mut Case) -> Option<usize> {
            let right = returned(case);
            Some((self.0)(case, right, self.1) as usize)
        }
    }
    for number in [16, 17] {
        assert!(
            differences(&Behind(behind, number), Kind::Surface) > 0,
            "{number}"
        );
    }
}

/// The first axis extended, whatever the sheet says.
#[test]
fn a_mode_that_is_not_taken_from_the_sheet_is_found() {
    assert!(is_found(|given, right| {
        let mut extended = given.clone();
        let bytes = extended.argument_mut("bytes").bytes_mut();
        if bytes.len() < 3 || bytes[0] >> 4 != 2 || bytes[2] >> 3 & 3 == 3 {
            return right;
        }
        bytes[2] &= 0b1110_0111;
        returned(&extended)
    }));
}

/// The pattern of a coordinate handed on where it is no number.
#[test]
fn a_payload_that_is_handed_on_is_found() {
    assert!(is_found(|given, right| {
        if right == REFUSED + 7 && f64::from_bits(pattern(given, 0)).is_nan() {
            pattern(given, 0)
        } else {
            right
        }
    }));
}

/// 7 for a coordinate before the build's 10.
#[test]
fn a_coordinate_that_is_refused_before_the_build_is_found() {
    assert!(is_found(|given, right| {
        if right == REFUSED + 10 && !f64::from_bits(pattern(given, 0)).is_finite() {
            REFUSED + 7
        } else {
            right
        }
    }));
}

/// The first two coordinates exchanged.
#[test]
fn exchanged_coordinates_are_found() {
    assert!(is_found(|given, _| {
        let mut exchanged = given.clone();
        exchanged.arguments.swap(1, 2);
        returned(&exchanged)
    }));
}
