//! The crate says what the header for C says.

use hullashlar::{direction, kind, mode, Refusal};

const HEADER: &str = include_str!("../../../../include/hullashlar.h");

/// The number that the header gives a name.
fn number(name: &str) -> usize {
    let found = HEADER.split(&format!(" HULLASHLAR_{name} = ")).nth(1);
    let digits = found
        .expect("the header has the name")
        .split(|letter: char| !letter.is_ascii_digit());
    digits
        .take(1)
        .collect::<String>()
        .parse()
        .expect("it is a number")
}

#[test]
fn refusals_are_those_of_the_header() {
    let named: Vec<&str> = HEADER.split(" HULLASHLAR_REFUSED_").skip(1).collect();
    assert_eq!(named.len(), 23);
    for entry in named {
        let (name, _) = entry.split_once(" = ").expect("a refusal has a number");
        let refusal = Refusal::of(number(&format!("REFUSED_{name}"))).expect("the number is known");
        assert_eq!(refusal.name(), name.to_lowercase());
        assert_eq!(Refusal::of(refusal.number()), Some(refusal));
    }
    assert_eq!((Refusal::of(0), Refusal::of(24)), (None, None));
    let said = Refusal::Number.to_string();
    assert_eq!(said, "refused 7 (number): a number that is infinite or NaN");
}

#[test]
fn numbers_are_those_of_the_header() {
    let sizes = [
        (hullashlar::SCRATCH, "SCRATCH"),
        (hullashlar::BUFFER, "BUFFER"),
        (hullashlar::LONGEST_TENSOR, "TENSOR"),
        (hullashlar::LONGEST_SHEET, "SHEET"),
    ];
    let codes = [
        (kind::NOT_A_KNOT, "NOT_A_KNOT"),
        (kind::FIRST_DERIVATIVE, "FIRST_DERIVATIVE"),
        (kind::SECOND_DERIVATIVE, "SECOND_DERIVATIVE"),
        (kind::PERIODIC, "PERIODIC"),
        (mode::EXTEND, "EXTEND"),
        (mode::HOLD, "HOLD"),
        (mode::REFUSE, "REFUSE"),
        (direction::LOWER, "LOWER"),
        (direction::UPPER, "UPPER"),
    ];
    let codes = codes.map(|(code, name)| (usize::from(code), name));
    for (own, name) in sizes.into_iter().chain(codes) {
        assert_eq!(own, number(name), "{name}");
    }
    let refused = format!("UINT64_C(0x{:X})", hullashlar::REFUSED);
    assert!(HEADER.contains(&refused));
}

#[test]
fn the_version_is_that_of_the_header() {
    let version = format!(
        "#define HULLASHLAR_VERSION \"{}\"",
        env!("CARGO_PKG_VERSION")
    );
    assert!(HEADER.contains(&version));
}
