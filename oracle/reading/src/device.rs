//! One cell in whole numbers, the cursor over a curve of cells, and what the device's program
//! prints, by integers of 128 bits and from the request alone.

use crate::refusals::{require, Refusal};

/// What the exact value is a multiple of: 256³.
const UNIT: i128 = 256 * 256 * 256;

/// The bytes of a cell.
const CELL: usize = 16;

/// p0, p1, d0, d1.
type Cell = [i32; 4];

/// The exact value times 256³.
fn exact([p0, p1, d0, d1]: Cell, k: i128) -> i128 {
    let [p0, p1, d0, d1] = [p0, p1, d0, d1].map(i128::from);
    (2 * k.pow(3) - 768 * k.pow(2) + UNIT) * p0
        + (k.pow(3) - 512 * k.pow(2) + 65_536 * k) * d0
        + (-2 * k.pow(3) + 768 * k.pow(2)) * p1
        + (k.pow(3) - 256 * k.pow(2)) * d1
}

/// The nearest whole number: the one below, or the one above it, or at a half the one that lies
/// farther from zero.
fn nearest(exact: i128) -> i32 {
    let (below, rest) = (exact.div_euclid(UNIT), exact.rem_euclid(UNIT));
    let up = 2 * rest > UNIT || (2 * rest == UNIT && exact > 0);
    i32::try_from(below + i128::from(up)).expect("a cell in range reaches no farther")
}

fn number(cell: Cell, k: u32) -> i32 {
    nearest(exact(cell, i128::from(k)))
}

/// 19.
fn check_numbers([p0, p1, d0, d1]: Cell) -> Result<(), Refusal> {
    let values = [p0, p1].map(|value| (-32_768..=32_767).contains(&value));
    let slopes = [d0, d1].map(|slope| (-131_072..=131_071).contains(&slope));
    require(values == [true; 2] && slopes == [true; 2], 19)
}

/// The value of a cell at a position, in a slot of one.
pub fn cell_value(cell: [i32; 4], k: i32, value: &mut [i32]) -> Refusal {
    let [value] = value else { return 4 };
    let answer = check_numbers(cell)
        .and_then(|()| require((0..=256).contains(&k), 20))
        .map(|()| number(cell, k.unsigned_abs()));
    *value = answer.unwrap_or(0);
    answer.err().unwrap_or(0)
}

/// The cells of a curve, judged whole.
fn cells(curve: &[u8]) -> Result<Vec<Cell>, Refusal> {
    let (whole, rest) = (curve.len() / CELL, curve.len() % CELL);
    require((1..=255).contains(&whole) && rest == 0, 20)?;
    let number = |bytes: &[u8]| i32::from_le_bytes(bytes.try_into().expect("four bytes"));
    let cell = |bytes: &[u8]| [0, 4, 8, 12].map(|at| number(&bytes[at..at + 4]));
    let cells: Vec<Cell> = curve.chunks(CELL).map(cell).collect();
    cells.iter().try_for_each(|cell| check_numbers(*cell))?;
    Ok(cells)
}

/// All numbers in the program's order: each cell at 0 to 255, and the last at 256.
fn numbers(cells: &[Cell]) -> impl Iterator<Item = i32> + '_ {
    let walked = cells
        .iter()
        .flat_map(|cell| (0..256).map(|k| number(*cell, k)));
    walked.chain(cells.last().map(|cell| number(*cell, 256)))
}

/// The value at the cursor in its slot, and the cursor moved on.
pub fn cursor_next(curve: &[u8], cursor: &mut [u32], value: &mut [i32]) -> Refusal {
    let ([cursor], [value]) = (cursor, value) else {
        return 4;
    };
    let answer = cells(curve).and_then(|cells| numbers(&cells).nth(*cursor as usize).ok_or(20));
    *value = answer.unwrap_or(0);
    *cursor += u32::from(answer.is_ok());
    answer.err().unwrap_or(0)
}

/// All that the device's program prints of a curve.
pub fn device_text(curve: &[u8]) -> String {
    match cells(curve) {
        Ok(cells) => numbers(&cells)
            .map(|number| format!("{number}\n"))
            .collect(),
        Err(refusal) => format!("refused {refusal}\n"),
    }
}
