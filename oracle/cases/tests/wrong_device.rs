//! Copies of the device with one deliberate error each: the cases find them.

mod altered;

use altered::{differences, Altered};
use cases::{integer, Call, Case, Kind};

/// Whether the number of a cell in its middle is a half, and on which side of zero. There the
/// exact value is (p0 + p1) / 2 + (d0 − d1) / 8.
fn half(given: &Case) -> Option<bool> {
    let number = |name| i64::from(integer(given.argument(name)));
    let eighths = 4 * (number("p0") + number("p1")) + number("d0") - number("d1");
    (number("k") == 128 && eighths.rem_euclid(8) == 4).then_some(eighths < 0)
}

/// One more in the slot of an accepted value, by its 32 bits.
fn add(answered: &mut Case, more: i32) {
    if let [value] = answered.argument_mut("value").numbers_mut() {
        *value = (*value as u32).wrapping_add(more as u32) as usize;
    }
}

/// Whether the worked examples, which have halves, find an alteration of the value.
fn is_found(alter: fn(&Case, &mut Case)) -> bool {
    let wrong = Altered {
        call: Call::CellValue,
        alter,
    };
    differences(&wrong, Kind::Example) > 0
}

#[test]
fn a_half_toward_zero_is_found() {
    assert!(is_found(|given, answered| {
        if let Some(below) = half(given) {
            add(answered, if below { 1 } else { -1 });
        }
    }));
}

#[test]
fn a_half_below_zero_that_goes_up_is_found() {
    assert!(is_found(|given, answered| {
        if half(given) == Some(true) {
            add(answered, 1);
        }
    }));
}

#[test]
fn a_value_one_off_is_found() {
    let wrong = Altered {
        call: Call::CellValue,
        alter: |_, answered| add(answered, 1),
    };
    assert!(differences(&wrong, Kind::CellValue) > 0);
}

#[test]
fn a_cursor_that_does_not_move_is_found() {
    let wrong = Altered {
        call: Call::CursorNext,
        alter: |given, answered| {
            let before = given.argument("cursor").numbers();
            let cursor = answered.argument_mut("cursor").numbers_mut();
            cursor.copy_from_slice(before);
        },
    };
    assert!(differences(&wrong, Kind::CursorNext) > 0);
}
