//! Edges that the generated sheets are to reach, and whether a sheet that is read reaches one.

use crate::case::{Argument, Call, Calls, Case};
use crate::reached::Edge;
use crate::reading_calls::Reading;
use reading::HOLD;

/// How many edges there are.
pub const SHEET_COUNT: usize = 17;

pub const SHEET_EDGES: [Edge; SHEET_COUNT] = [
    Edge {
        name: "a sheet of edition 1 read, good or damaged",
        is_reached: |case, _| is_read(case) && edition(case) == Some(1),
    },
    Edge {
        name: "a sheet of edition 2 read, good or damaged",
        is_reached: |case, _| is_read(case) && edition(case) == Some(2),
    },
    Edge {
        name: "a sheet of edition 1 accepted",
        is_reached: |case, refusal| is_read(case) && refusal == 0 && edition(case) == Some(1),
    },
    Edge {
        name: "a sheet of edition 2 accepted with other modes on two axes",
        is_reached: |case, refusal| is_read(case) && refusal == 0 && modes_differ(case),
    },
    Edge {
        name: "a sheet of edition 2 whose build alone is refused",
        is_reached: |case, refusal| {
            let refused_by_build = matches!(refusal, 5 | 7 | 8 | 9 | 10);
            case.call == Call::SheetTensor && refused_by_build && edition(case) == Some(2)
        },
    },
    Edge {
        name: "mode bits 3 behind kinds that do not go together",
        is_reached: |case, refusal| refusal == 13 && first_mode(case) == Some(3),
    },
    Edge {
        name: "mode bits 3 with nothing behind them",
        is_reached: |case, refusal| refusal == 22 && case.argument("bytes").length() == 3,
    },
    Edge {
        name: "mode bits 3 on another axis than the first",
        is_reached: |case, refusal| refusal == 22 && first_mode(case) != Some(3),
    },
    Edge {
        name: "a sheet of edition 2 for the reader of edition 1",
        is_reached: |case, refusal| {
            case.call == Call::ReadEdition1 && refusal == 12 && edition(case) == Some(2)
        },
    },
    Edge {
        name: "a surface of a tensor of 512 numbers",
        is_reached: |case, refusal| asked(case) && refusal == 0 && tensor(case) == Some(512),
    },
    Edge {
        name: "a tensor of 516 numbers, too long for a surface",
        is_reached: |case, refusal| asked(case) && refusal == 16 && tensor(case) == Some(516),
    },
    Edge {
        name: "a fault at the end of a sheet whose tensor is too long for a surface",
        is_reached: |case, refusal| {
            asked(case) && refusal == 14 && tensor(case).is_some_and(|length| length > 512)
        },
    },
    Edge {
        name: "a tensor too long for a surface beside a coordinate that is not in use and not 0",
        is_reached: |case, refusal| asked(case) && refusal == 16 && unused_not_zero(case),
    },
    Edge {
        name: "minus zero as a coordinate that is not in use",
        is_reached: |case, refusal| asked(case) && refusal == 17 && pattern(case, 3) == 1 << 63,
    },
    Edge {
        name: "a coordinate that is not in use and not 0 beside a build that is refused",
        is_reached: |case, refusal| asked(case) && refusal == 17 && refused_by_build(case),
    },
    Edge {
        name: "a build that overflows beside a coordinate that is no number",
        is_reached: |case, refusal| asked(case) && refusal == 10 && is_nan(pattern(case, 0)),
    },
    Edge {
        name: "a surface outside its knots in hold",
        is_reached: |case, refusal| asked(case) && refusal == 0 && held(case),
    },
];

fn asked(case: &Case) -> bool {
    case.call == Call::Surface
}

/// A coordinate of a surface.
fn pattern(case: &Case, axis: usize) -> u64 {
    case.arguments[1 + axis].number() as u64
}

/// Whether a coordinate past the axes of a sheet is not the pattern 0.
fn unused_not_zero(case: &Case) -> bool {
    let axes = bits(case.argument("bytes").bytes(), 4, 3).unwrap_or(4);
    (axes..4).any(|axis| pattern(case, axis) != 0)
}

fn is_nan(pattern: u64) -> bool {
    f64::from_bits(pattern).is_nan()
}

/// The refusal of a surface with other coordinates.
fn refusal_at(case: &Case, coordinates: [u64; 4]) -> usize {
    let mut other = case.clone();
    for (argument, pattern) in other.arguments[1..].iter_mut().zip(coordinates) {
        *argument = Argument::Number(pattern as usize);
    }
    let returned = Reading.run(&mut other).expect("the reading answers all");
    case.call.refusal(returned)
}

/// Whether the build of a surface is refused, which is asked at a point that no query takes.
fn refused_by_build(case: &Case) -> bool {
    let no_number = f64::NAN.to_bits();
    let nowhere = [1, 2, 3, 4].map(|axes| {
        let mut coordinates = [0; 4];
        coordinates[..axes].fill(no_number);
        refusal_at(case, coordinates)
    });
    nowhere.iter().any(|refusal| matches!(refusal, 8..=10))
}

/// Whether the first axis of a sheet of edition 2 is held, and its coordinate far above any knots.
fn held(case: &Case) -> bool {
    let first = f64::from_bits(pattern(case, 0));
    first_mode(case) == Some(HOLD) && first.abs() >= 1e200
}

/// So many bits of a sheet from a place on.
fn bits(bytes: &[u8], at: usize, width: usize) -> Option<usize> {
    let bit = |at: usize| Some(bytes.get(at / 8)? >> (7 - at % 8) & 1);
    (at..at + width).try_fold(0, |number, at| Some(number << 1 | usize::from(bit(at)?)))
}

/// How many numbers the tensor of a sheet has, by its axes alone.
fn tensor(case: &Case) -> Option<usize> {
    let bytes = case.argument("bytes").bytes();
    let axes = bits(bytes, 4, 3)?;
    let (mut at, mut samples) = (7, 1);
    for _ in 0..axes {
        let points = 1 + bits(bytes, at, 8)?;
        let kinds = [bits(bytes, at + 8, 2)?, bits(bytes, at + 10, 2)?];
        let numbered = kinds.iter().filter(|kind| matches!(kind, 1 | 2)).count();
        let mode = if edition(case) == Some(2) { 2 } else { 0 };
        at += 12 + mode + 64 * (numbered + points);
        samples *= points;
    }
    Some(samples << axes)
}

fn is_read(case: &Case) -> bool {
    case.call == Call::Read
}

/// The edition that a sheet says.
fn edition(case: &Case) -> Option<u8> {
    case.argument("bytes").bytes().first().map(|byte| byte >> 4)
}

/// The two bits behind the kinds of the first axis, in edition 2.
fn first_mode(case: &Case) -> Option<u8> {
    let third = case.argument("bytes").bytes().get(2)?;
    (edition(case) == Some(2)).then_some(third >> 3 & 3)
}

/// Whether two axes of a sheet that is accepted have other modes.
fn modes_differ(case: &Case) -> bool {
    if edition(case) != Some(2) {
        return false;
    }
    let mut read = case.clone();
    Reading.run(&mut read);
    let axes = read.argument("axes").numbers()[0];
    let modes = &read.argument("modes").bytes()[..axes];
    modes.iter().any(|mode| *mode != modes[0])
}
