//! Readers and writers with one deliberate error in what edition 2 brought: the cases find them.

mod altered;

use altered::{differences, Altered};
use cases::{Argument, Call, Calls, Case, Kind, Reading};
use reading::{EXTEND, HOLD};

/// A subject that is asked as if it were given something else, or answers something else.
struct Wrong(fn(&mut Case) -> usize);

impl Calls for Wrong {
    fn run(&self, case: &mut Case) -> Option<usize> {
        Some((self.0)(case))
    }
}

/// The reading's answer.
fn right(case: &mut Case) -> usize {
    Reading.run(case).expect("the reading answers all")
}

fn is_found(wrong: fn(&mut Case) -> usize, kinds: &[Kind]) {
    for kind in kinds {
        let found = differences(&Wrong(wrong), *kind);
        assert!(found > 0, "{}", kind.name());
    }
}

/// The calls that read a sheet of either edition.
const READERS: [Kind; 3] = [Kind::Read, Kind::SheetTensor, Kind::WrittenBack];

/// The case of a sheet of edition 2 with other bits in the place of its first mode.
fn with_first_mode(case: &Case, mode: u8) -> Option<Case> {
    let mut other = case.clone();
    let bytes = other.argument_mut("bytes").bytes_mut();
    let in_edition_2 = bytes.first().is_some_and(|byte| byte >> 4 == 2);
    let third = bytes.get_mut(2).filter(|_| in_edition_2)?;
    *third = *third & 0b1110_0111 | mode << 3;
    Some(other)
}

/// Whether a case that was answered has this mode first.
fn has_first_mode(case: &Case, mode: u8) -> bool {
    with_first_mode(case, mode).is_some_and(|same| {
        let (own, same) = (case.argument("bytes"), same.argument("bytes"));
        own.bytes() == same.bytes()
    })
}

fn is_sheet(case: &Case) -> bool {
    matches!(case.call, Call::Read | Call::SheetTensor)
}

#[test]
fn mode_bits_3_that_are_accepted_are_found() {
    let wrong = |case: &mut Case| {
        let other =
            with_first_mode(case, EXTEND).filter(|_| is_sheet(case) && has_first_mode(case, 3));
        let Some(mut other) = other else {
            return right(case);
        };
        let refusal = right(&mut other);
        *other.argument_mut("bytes") = case.argument("bytes").clone();
        *case = other;
        refusal
    };
    is_found(wrong, &READERS);
}

/// 22 for kinds that do not go together, where the mode's bits are 3 too.
#[test]
fn a_mode_that_is_refused_before_the_kinds_is_found() {
    let wrong = |case: &mut Case| {
        let no_mode = is_sheet(case) && has_first_mode(case, 3);
        match right(case) {
            13 if no_mode => 22,
            refusal => refusal,
        }
    };
    is_found(wrong, &READERS);
}

/// 11 for what is missing behind a mode that there is not.
#[test]
fn a_mode_that_is_refused_after_the_numbers_is_found() {
    let wrong = |case: &mut Case| {
        let refusal = right(case);
        let short = is_sheet(case) && case.argument("bytes").length() == 3;
        if refusal == 22 && short {
            11
        } else {
            refusal
        }
    };
    is_found(wrong, &READERS);
}

/// The mode of the first axis told for all axes in use.
#[test]
fn the_first_mode_for_all_axes_is_found() {
    let wrong = |case: &mut Case| {
        let refusal = right(case);
        if is_sheet(case) && refusal == 0 {
            let axes = case.argument("axes").numbers()[0];
            let modes = case.argument_mut("modes").bytes_mut();
            let first = modes[0];
            modes[..axes].fill(first);
        }
        refusal
    };
    is_found(wrong, &READERS);
}

/// What of a sheet is told after a refusal: its edition, or a mode of an axis not in use.
#[test]
fn what_is_told_of_nothing_is_found() {
    let edition = |case: &mut Case| {
        let refusal = right(case);
        if is_sheet(case) && refusal == 22 && case.argument("edition").length() == 1 {
            case.argument_mut("edition").numbers_mut()[0] = 2;
        }
        refusal
    };
    is_found(edition, &READERS);
    let mode = |case: &mut Case| {
        let refusal = right(case);
        if is_sheet(case) && refusal == 0 {
            let axes = case.argument("axes").numbers()[0];
            case.argument_mut("modes").bytes_mut()[axes..].fill(HOLD);
        }
        refusal
    };
    is_found(mode, &READERS);
}

/// The reader of edition 1 that reads edition 2 as well.
#[test]
fn a_reader_of_edition_1_that_shows_edition_2_is_found() {
    let wrong = |case: &mut Case| {
        if case.call != Call::ReadEdition1 {
            return right(case);
        }
        let mut both = case.arguments.clone();
        both.extend([Argument::of_bytes(&[0; 4]), Argument::of_numbers(&[0])]);
        let mut both = Case::new(Call::Read, both);
        let refusal = right(&mut both);
        both.arguments.truncate(case.arguments.len());
        case.arguments = both.arguments;
        refusal
    };
    is_found(wrong, &[Kind::ReadEdition1, Kind::Write, Kind::WrittenBack]);
}

/// Alters what a writer is given, and puts it back.
fn write_with(case: &mut Case, alter: fn(&mut Case)) -> usize {
    if case.call != Call::Write {
        return right(case);
    }
    let given = case.clone();
    alter(case);
    let refusal = right(case);
    for name in ["modes", "edition"] {
        *case.argument_mut(name) = given.argument(name).clone();
    }
    refusal
}

#[test]
fn a_mode_that_is_dropped_silently_is_found() {
    let wrong = |case: &mut Case| {
        write_with(case, |case| {
            if case.argument("edition").number() == 1 {
                case.argument_mut("modes").bytes_mut().fill(EXTEND);
            }
        })
    };
    is_found(wrong, &[Kind::Write, Kind::WrittenBack]);
}

/// An edition of which only the lowest four bits, or eight, are looked at.
#[test]
fn an_edition_that_is_cut_short_is_found() {
    let four_bits = |case: &mut Case| {
        write_with(case, |case| {
            let edition = case.argument("edition").number() & 15;
            *case.argument_mut("edition") = Argument::Number(edition);
        })
    };
    let eight_bits = |case: &mut Case| {
        write_with(case, |case| {
            let edition = case.argument("edition").number() & 255;
            *case.argument_mut("edition") = Argument::Number(edition);
        })
    };
    is_found(four_bits, &[Kind::Write]);
    is_found(eight_bits, &[Kind::Write]);
}

/// 23 for a mode on an axis that is not in use.
#[test]
fn a_mode_that_is_read_behind_the_axes_is_found() {
    let wrong = |case: &mut Case| {
        let refusal = right(case);
        let written_in_1 =
            case.call == Call::Write && case.argument("edition").number() == 1 && refusal == 0;
        let all_extended = || {
            let modes = case.argument("modes").bytes();
            modes.iter().all(|mode| *mode == EXTEND)
        };
        if written_in_1 && !all_extended() {
            23
        } else {
            refusal
        }
    };
    is_found(wrong, &[Kind::Write]);
}

/// 15 before 12, or before 23.
#[test]
fn a_short_buffer_refused_before_the_edition_is_found() {
    for number in [12, 23] {
        let wrong = BufferBefore(number);
        assert!(differences(&wrong, Kind::Write) > 0, "{number}");
    }
}

struct BufferBefore(usize);

impl Calls for BufferBefore {
    fn run(&self, case: &mut Case) -> Option<usize> {
        let mut other = case.clone();
        let refusal = Reading.run(case)?;
        if case.call != Call::Write || refusal != self.0 {
            return Some(refusal);
        }
        *other.argument_mut("edition") = Argument::Number(2);
        let in_edition_2 = Reading.run(&mut other)?;
        Some(if in_edition_2 == 15 { 15 } else { refusal })
    }
}

/// The mode's bits before the upper kind.
#[test]
fn the_mode_before_the_upper_kind_is_found() {
    let wrong = Altered {
        call: Call::Write,
        alter: |given, answered| {
            if given.argument("edition").number() == 2 {
                let third = &mut answered.argument_mut("bytes").bytes_mut()[2];
                let (upper, mode) = (*third >> 5 & 3, *third >> 3 & 3);
                *third = *third & 0b1000_0111 | mode << 5 | upper << 3;
            }
        },
    };
    assert!(differences(&wrong, Kind::Write) > 0);
    assert!(differences(&wrong, Kind::WrittenBack) > 0);
}
