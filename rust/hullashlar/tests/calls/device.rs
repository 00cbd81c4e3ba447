//! Cells and curves in whole numbers.

use hullashlar::{cell_value, cursor_next, Refusal};

#[test]
fn a_cell_is_read() {
    assert_eq!(cell_value([-7, 9, 100, -100], 0), Ok(-7));
    assert_eq!(cell_value([-7, 9, 100, -100], 256), Ok(9));
    assert_eq!(cell_value([0, 256, 0, 0], 128), Ok(128));
    assert_eq!(cell_value([0, 256, 0, 0], -1), Err(Refusal::Position));
    assert_eq!(cell_value([0, 32768, 0, 0], 0), Err(Refusal::Range));
}

#[test]
fn a_cursor_walks_to_the_end_and_stays_there() {
    let cells = [[0, 256, 256, 256], [256, 0, -256, -256]];
    let numbers = cells.concat().into_iter();
    let curve: Vec<u8> = numbers.flat_map(i32::to_le_bytes).collect();
    let mut cursor = 0;
    for step in 0..=512 {
        let cell = cells[usize::from(step >= 256)];
        let position = if step >= 256 { step - 256 } else { step };
        assert_eq!(cursor_next(&curve, &mut cursor), cell_value(cell, position));
    }
    for _ in 0..2 {
        assert_eq!(cursor_next(&curve, &mut cursor), Err(Refusal::Position));
        assert_eq!(cursor, 513);
    }
    cursor = 0;
    assert_eq!(
        cursor_next(&curve[1..], &mut cursor),
        Err(Refusal::Position)
    );
    assert_eq!(cursor, 0);
}
