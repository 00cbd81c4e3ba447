//! Writers of sheets with one deliberate error each: the cases find them.

mod altered;

use altered::{differences, Altered};
use cases::{Call, Calls, Case, Kind, Reading};

/// Whether an error is found in sheets that are written, and in those that are written back.
fn is_found(wrong: &dyn Calls) -> bool {
    differences(wrong, Kind::Write) > 0 && differences(wrong, Kind::WrittenBack) > 0
}

/// The writer whose accepted sheets are altered.
fn altered(alter: fn(given: &Case, answered: &mut Case)) -> bool {
    let alter = Altered {
        call: Call::Write,
        alter,
    };
    // Only calls of the writer are answered: nothing is read back.
    is_found(&alter)
}

#[test]
fn a_writer_that_is_not_altered_is_the_same() {
    for kind in [Kind::Write, Kind::WrittenBack] {
        let same = Altered {
            call: Call::Write,
            alter: |_, _| (),
        };
        assert_eq!(differences(&same, kind), 0);
    }
}

fn length(case: &Case) -> usize {
    case.argument("length").numbers()[0]
}

#[test]
fn the_least_significant_bit_first_is_found() {
    assert!(altered(|_, answered| {
        let length = length(answered);
        let sheet = &mut answered.argument_mut("bytes").bytes_mut()[..length];
        sheet
            .iter_mut()
            .for_each(|byte| *byte = byte.reverse_bits());
    }));
}

#[test]
fn values_in_the_other_order_are_found() {
    assert!(altered(|given, answered| {
        let mut exchanged = given.clone();
        for values in exchanged.argument_mut("values").floats_mut().chunks_mut(2) {
            values.reverse();
        }
        // Where one end alone has a number this refuses, or takes a number that is not read.
        let kinds = given.argument("kinds").bytes()[..2].to_vec();
        if kinds.iter().all(|kind| matches!(kind, 1 | 2)) && Reading.run(&mut exchanged) == Some(0)
        {
            let bytes = exchanged.argument("bytes").bytes();
            answered
                .argument_mut("bytes")
                .bytes_mut()
                .copy_from_slice(bytes);
        }
    }));
}

#[test]
fn a_tail_that_is_not_cleared_is_found() {
    assert!(altered(|given, answered| {
        let last = length(answered) - 1;
        let before = given.argument("bytes").bytes()[last];
        let axes = given.argument("axes").number();
        let of_an_axis = [12, 14][given.argument("edition").number() - 1];
        // Edition, number of axes and the bits of each axis; all else is whole bytes.
        let bits = (7 + of_an_axis * axes) % 8;
        let tail = if bits == 0 { 0 } else { 0xFF >> bits };
        answered.argument_mut("bytes").bytes_mut()[last] |= before & tail;
    }));
}

#[test]
fn bytes_past_the_sheet_that_are_cleared_are_found() {
    assert!(altered(|_, answered| {
        let length = length(answered);
        answered.argument_mut("bytes").bytes_mut()[length..].fill(0);
    }));
}

#[test]
fn a_length_in_bits_is_found() {
    assert!(altered(|_, answered| answered
        .argument_mut("length")
        .numbers_mut()[0] *= 8));
}

/// What is done on a refusal by 15.
struct OnShortBuffers {
    alter: fn(&mut Case) -> usize,
}

impl Calls for OnShortBuffers {
    fn run(&self, case: &mut Case) -> Option<usize> {
        match Reading.run(case)? {
            15 => Some((self.alter)(case)),
            refusal => Some(refusal),
        }
    }
}

#[test]
fn a_buffer_that_is_written_before_it_is_refused_is_found() {
    assert!(is_found(&OnShortBuffers {
        alter: |case| {
            if let Some(first) = case.argument_mut("bytes").bytes_mut().first_mut() {
                *first = 0x12;
            }
            15
        },
    }));
}

#[test]
fn a_length_that_is_told_with_a_refusal_is_found() {
    assert!(is_found(&OnShortBuffers {
        alter: |case| {
            case.argument_mut("length").numbers_mut()[0] = case.argument("bytes").length() + 1;
            15
        },
    }));
}

/// Looks for 15 before 9.
struct BufferFirst;

impl Calls for BufferFirst {
    fn run(&self, case: &mut Case) -> Option<usize> {
        let mut natural = case.clone();
        let refusal = Reading.run(case)?;
        if case.call != Call::Write || refusal != 9 {
            return Some(refusal);
        }
        natural.argument_mut("kinds").bytes_mut().fill(3);
        let of_natural = Reading.run(&mut natural)?;
        Some(if of_natural == 15 { 15 } else { 9 })
    }
}

#[test]
fn a_short_buffer_refused_before_fewness_is_found() {
    assert!(differences(&BufferFirst, Kind::Write) > 0);
}
