//! The device by hand: halves on both sides of zero, the farthest reach, both ends of a cell, the
//! refusals in their order, and a walk of two cells.

use reading::{cell_value, cursor_next, device_text};

fn value(cell: [i32; 4], k: i32) -> (usize, i32) {
    let mut value = [7];
    (cell_value(cell, k, &mut value), value[0])
}

#[test]
fn a_half_goes_away_from_zero() {
    assert_eq!(value([0, 1, 0, 0], 128), (0, 1));
    assert_eq!(value([0, -1, 0, 0], 128), (0, -1));
}

#[test]
fn no_cell_in_range_reaches_farther() {
    assert_eq!(value([32_767, 32_767, 131_071, -131_072], 128), (0, 65_535));
    assert_eq!(
        value([-32_768, -32_768, -131_072, 131_071], 128),
        (0, -65_536)
    );
}

#[test]
fn at_its_ends_a_cell_has_its_values() {
    assert_eq!(value([-7, 11, 131_071, -131_072], 0), (0, -7));
    assert_eq!(value([-7, 11, 131_071, -131_072], 256), (0, 11));
}

#[test]
fn numbers_are_refused_before_positions() {
    assert_eq!(value([32_768, 0, 0, 0], 257), (19, 0));
    assert_eq!(value([0, 0, 0, -131_073], 0), (19, 0));
    assert_eq!(value([32_767, 0, 0, 0], 257), (20, 0));
    assert_eq!(value([0; 4], -1), (20, 0));
    assert_eq!(cell_value([0; 4], 0, &mut []), 4);
}

#[test]
fn the_cursor_walks_what_is_printed_and_then_answers_20() {
    let cells = [[0, 1, 0, 0], [1, -1, 131_071, -131_072]];
    let curve = cells.concat().into_iter().flat_map(i32::to_le_bytes);
    let curve: Vec<u8> = curve.collect();
    let (mut cursor, mut value) = ([0], [0]);
    let mut walked = String::new();
    while cursor_next(&curve, &mut cursor, &mut value) == 0 {
        walked += &format!("{}\n", value[0]);
    }
    assert_eq!(walked, device_text(&curve));
    assert_eq!(walked.lines().count(), 513);
    assert_eq!(cursor_next(&curve, &mut cursor, &mut value), 20);
    assert_eq!((cursor, value), ([513], [0]));
}

#[test]
fn a_curve_is_judged_whole_its_length_first() {
    let off = [32_768, 0, 0, 0].map(i32::to_le_bytes).concat();
    assert_eq!(device_text(&off), "refused 19\n");
    assert_eq!(device_text(&off[..15]), "refused 20\n");
    assert_eq!(device_text(&[]), "refused 20\n");
    assert_eq!(device_text(&vec![0; 4_096]), "refused 20\n");
}
