//! Packed sheets.

use crate::grids::{bits, even, grid, Grid};
use hullashlar::{
    query, read, read_edition_1, sheet_tensor, surface, write, Axes, Refusal, Sheet, BUFFER,
    LONGEST_SHEET, LONGEST_TENSOR, SCRATCH,
};

/// The example sheet of the repository: gains at five frequencies and five levels.
const GAINS: &[u8] = include_bytes!("../../../../examples/gain.sheet");

fn packed(edition: usize, axes: &Axes, grid: &Grid) -> Result<Vec<u8>, Refusal> {
    let mut bytes = vec![0xA5; LONGEST_SHEET];
    let length = write(edition, axes, &grid.knots, &grid.samples, &mut bytes)?;
    assert!(bytes[length..].iter().all(|&byte| byte == 0xA5));
    bytes.truncate(length);
    Ok(bytes)
}

/// What stands past the axes in use is 0 where a sheet is read.
fn as_read(mut axes: Axes) -> Axes {
    axes.kinds[2 * axes.count..].fill(0);
    axes.modes[axes.count..].fill(0);
    axes
}

#[test]
fn a_sheet_is_written_and_read() {
    let grid = even();
    let sheet = packed(2, &grid.axes, &grid).expect("the grid is accepted");
    let (mut knots, mut samples) = ([7.0; BUFFER], [7.0; BUFFER]);
    let said = read(&sheet, &mut knots, &mut samples);
    let axes = as_read(grid.axes.clone());
    assert_eq!(said, Ok(Sheet { edition: 2, axes }));
    assert_eq!(bits(&knots[..7]), bits(&grid.knots));
    assert_eq!(bits(&samples[..12]), bits(&grid.samples));
    assert_eq!((knots[7], samples[12]), (7.0, 7.0));
    let old = read_edition_1(&sheet, &mut knots, &mut samples);
    assert_eq!(old, Err(Refusal::Edition));
}

#[test]
fn edition_1_has_no_modes() {
    let mut grid = even();
    let lost = packed(1, &grid.axes, &grid);
    assert_eq!(lost, Err(Refusal::Lost));
    grid.axes.modes = [0; 4];
    let sheet = packed(1, &grid.axes, &grid).expect("the grid is accepted");
    let (mut knots, mut samples) = ([0.0; BUFFER], [0.0; BUFFER]);
    let axes = as_read(grid.axes.clone());
    assert_eq!(
        read_edition_1(&sheet, &mut knots, &mut samples),
        Ok(axes.clone())
    );
    assert_eq!(
        read(&sheet, &mut knots, &mut samples),
        Ok(Sheet { edition: 1, axes })
    );
    assert_eq!(packed(3, &grid.axes, &grid), Err(Refusal::Edition));
}

#[test]
fn a_sheet_gives_its_tensor() {
    let grid = even();
    let sheet = packed(2, &grid.axes, &grid).expect("the grid is accepted");
    let (mut knots, mut samples) = ([0.0; BUFFER], [0.0; BUFFER]);
    let (mut tensor, mut scratch) = ([7.0; LONGEST_TENSOR], [0.0; LONGEST_TENSOR + SCRATCH]);
    let built = sheet_tensor(&sheet, &mut knots, &mut samples, &mut tensor, &mut scratch);
    assert_eq!(built.map(|(_, length)| length), Ok(48));
    assert_eq!(bits(&tensor[..48]), bits(&grid.tensor));
    assert_eq!(tensor[48], 7.0);
}

#[test]
fn a_sheet_is_asked_by_one_call() {
    let Grid {
        axes,
        knots,
        tensor,
        ..
    } = &even();
    let sheet = packed(2, axes, &even()).expect("the grid is accepted");
    let point = [0.7_f64, 55.0];
    let patterns = [point[0].to_bits(), point[1].to_bits(), 0, 0];
    let value = query(axes, knots, tensor, &point).map(|(value, _)| value);
    assert_eq!(surface(&sheet, patterns), value);
    let third = [patterns[0], patterns[1], (-0.0_f64).to_bits(), 0];
    assert_eq!(surface(&sheet, third), Err(Refusal::Unused));
    let level = [patterns[0], f64::NAN.to_bits(), 0, 0];
    assert_eq!(surface(&sheet, level), Err(Refusal::Number));
    assert_eq!(surface(&sheet[..9], patterns), Err(Refusal::Short));
    let gain = surface(GAINS, [1.5_f64.to_bits(), 60_f64.to_bits(), 0, 0]);
    assert_eq!(
        gain.map(|gain| format!("{gain:.6}")),
        Ok("16.876647".to_string())
    );
}

#[test]
fn a_large_sheet_has_no_room_on_the_stack() {
    let knots: Vec<f64> = (0..12).map(f64::from).collect();
    let large = grid(&[&knots, &knots], |place| place[0] - place[1]);
    let sheet = packed(2, &large.axes, &large).expect("the grid is accepted");
    assert_eq!(surface(&sheet, [0; 4]), Err(Refusal::Stack));
}

#[test]
fn sheets_are_refused() {
    let (mut knots, mut samples) = ([0.0; BUFFER], [0.0; BUFFER]);
    let mut seen = |bytes: &[u8]| read(bytes, &mut knots, &mut samples).unwrap_err();
    assert_eq!(seen(&[]), Refusal::Short);
    assert_eq!(seen(&[0xF0, 0]), Refusal::Edition);
    assert_eq!(seen(&[GAINS, &[0]].concat()), Refusal::Tail);
    let grid = even();
    let few = write(2, &grid.axes, &grid.knots, &grid.samples, &mut [0; 100]);
    assert_eq!(few, Err(Refusal::Buffer));
}
