//! The compiled files are the given ones, which are those of the listed digests, and their functions answer.

mod sha256;

use ninterp_unchanged::*;
use sha256::digest;
use std::fs;
use std::path::Path;

#[test]
fn the_compiled_files_are_the_given_ones_byte_for_byte() {
    for (file, given, compiled) in given_and_compiled() {
        assert!(!given.is_empty());
        assert_eq!(given, compiled, "{file}");
    }
}

#[test]
fn the_given_files_have_not_moved_on_since_the_build() {
    for (file, given, _) in given_and_compiled() {
        let now = fs::read(Path::new(env!("NINTERP_GIVEN")).join(file)).unwrap();
        assert_eq!(now, given, "{file}");
    }
}

/// The digest and the name of each file, as `sha256sum` writes them.
const LISTED: &str = include_str!("../given.sha256");

#[test]
fn the_given_files_have_the_listed_digests() {
    let line = |(file, given, _): (&str, &[u8], &[u8])| format!("{}  {file}\n", digest(given));
    let found: String = given_and_compiled().into_iter().map(line).collect();
    assert_eq!(found, LISTED);
}

/// The examples that NIST gives for SHA-256: no block, one block, two blocks, and many.
#[test]
fn digests_are_known_ones() {
    let two_blocks = b"abcdbcdecdefdefgefghfghighijhijkijkljklmklmnlmnomnopnopq";
    let known: [(&[u8], &str); 4] = [
        (
            b"",
            "e3b0c44298fc1c149afbf4c8996fb92427ae41e4649b934ca495991b7852b855",
        ),
        (
            b"abc",
            "ba7816bf8f01cfea414140de5dae2223b00361a396177a9cb410ff61f20015ad",
        ),
        (
            two_blocks,
            "248d6a61d20638b8e5c026930c3e6039a33ce45964ff2167f6ecedd419db06c1",
        ),
        (
            &[b'a'; 1_000_000],
            "cdc76e5c9914fb9281a1c7e284d73e67f1809a48a497200e046d39ccc7112cd0",
        ),
    ];
    for (bytes, expected) in known {
        assert_eq!(digest(bytes), expected);
    }
}

#[test]
fn rows_are_solved() {
    let solution = thomas(&[0.0], &[2.0, 4.0], &[0.0], &[2.0, 8.0]);
    assert_eq!(solution, [1.0, 2.0]);
    assert_eq!(cyclic_thomas(&[], &[2.0], &[], &[4.0], 1.0), [1.0]);
}

#[test]
fn an_interior_knot_lies_in_the_cell_before_it() {
    let knots = [0.0, 1.0, 2.0];
    let cell = |point: f64| locate_lower_index(knots.as_slice().into(), &point);
    assert_eq!([cell(-1.0), cell(0.0), cell(1.0), cell(2.0)], [0, 0, 0, 1]);
}
