//! The lines of the calls of sheets, on sheets of edition 2, and of the reader of edition 1.

use super::{line, sheet_calls};
use crate::hullashlar::{self, BUFFER, LONGEST_TENSOR};
use crate::inputs::{Ends, Inputs, Surface};
use crate::lines::{our_read, our_surface, our_write, Line, Work, ACCEPTED};

/// Extend and hold in turn, which edition 2 has a place for.
const MODES: [u8; 4] = [0, 1, 0, 1];

/// The surfaces whose sheets are read, written, built and asked.
pub struct Sheets {
    line_of_6: Surface,
    three_by_three: Surface,
    five_by_five: Surface,
    small_two_axes: Surface,
    two_axes: Surface,
    three_axes: Surface,
    four_axes: Surface,
    line_of_256: Surface,
}

impl Sheets {
    pub fn new() -> Self {
        Self {
            line_of_6: surface(&[6]),
            three_by_three: surface(&[3, 3]),
            five_by_five: surface(&[5, 5]),
            small_two_axes: surface(&[8, 16]),
            two_axes: surface(&[16, 16]),
            three_axes: surface(&[6, 6, 6]),
            four_axes: surface(&[4, 4, 4, 4]),
            line_of_256: surface(&[256]),
        }
    }
}

fn surface(points: &[usize]) -> Surface {
    let mut surface = Surface::new(points, Ends::Natural);
    surface.axes.modes = MODES;
    surface.edition = 2;
    surface
}

/// Every call of sheets.
pub fn lines(inputs: &Inputs) -> Vec<Line<'_>> {
    let sheets = &inputs.sheets;
    let mut lines = Vec::new();
    lines.extend(reads(sheets));
    lines.extend(reads_of_edition_1(inputs));
    lines.extend(writes(sheets));
    lines.extend(tensors(sheets));
    lines.extend(surfaces(sheets));
    lines
}

fn reads(sheets: &Sheets) -> [Line<'_>; 8] {
    let read = |name, surface| line(name, our_read(surface), sheet_calls::read(surface));
    [
        read("reading the sheet of 6", &sheets.line_of_6),
        read("reading the sheet of 3×3", &sheets.three_by_three),
        read("reading the sheet of 5×5", &sheets.five_by_five),
        read("reading the sheet of 8×16", &sheets.small_two_axes),
        read("reading the sheet of 16×16", &sheets.two_axes),
        read("reading the sheet of 6×6×6", &sheets.three_axes),
        read("reading the sheet of 4×4×4×4", &sheets.four_axes),
        read("reading the sheet of 256", &sheets.line_of_256),
    ]
}

fn reads_of_edition_1(inputs: &Inputs) -> [Line<'_>; 2] {
    let read = |name, surface| {
        let limit = sheet_calls::read_edition_1(surface);
        line(name, our_read_edition_1(surface), limit)
    };
    [
        read("reading edition 1, sheet of 16×16", &inputs.two_axes),
        read("reading edition 1, sheet of 256", &inputs.line_of_256),
    ]
}

fn our_read_edition_1(surface: &Surface) -> Work<'_> {
    let sheet = surface.sheet();
    let last = surface.samples.len() - 1;
    let (mut knots, mut samples) = ([0.0; BUFFER], [0.0; BUFFER]);
    Box::new(move || {
        hullashlar::read_edition_1(&sheet, &mut knots, &mut samples).expect(ACCEPTED);
        samples[last]
    })
}

fn writes(sheets: &Sheets) -> [Line<'_>; 8] {
    let write = |name, surface| line(name, our_write(surface), sheet_calls::write(surface));
    [
        write("writing the sheet of 6", &sheets.line_of_6),
        write("writing the sheet of 3×3", &sheets.three_by_three),
        write("writing the sheet of 5×5", &sheets.five_by_five),
        write("writing the sheet of 8×16", &sheets.small_two_axes),
        write("writing the sheet of 16×16", &sheets.two_axes),
        write("writing the sheet of 6×6×6", &sheets.three_axes),
        write("writing the sheet of 4×4×4×4", &sheets.four_axes),
        write("writing the sheet of 256", &sheets.line_of_256),
    ]
}

fn tensors(sheets: &Sheets) -> [Line<'_>; 8] {
    let tensor = |name, surface| line(name, our_tensor(surface), sheet_calls::tensor(surface));
    [
        tensor("tensor of the sheet of 6", &sheets.line_of_6),
        tensor("tensor of the sheet of 3×3", &sheets.three_by_three),
        tensor("tensor of the sheet of 5×5", &sheets.five_by_five),
        tensor("tensor of the sheet of 8×16", &sheets.small_two_axes),
        tensor("tensor of the sheet of 16×16", &sheets.two_axes),
        tensor("tensor of the sheet of 6×6×6", &sheets.three_axes),
        tensor("tensor of the sheet of 4×4×4×4", &sheets.four_axes),
        tensor("tensor of the sheet of 256", &sheets.line_of_256),
    ]
}

fn our_tensor(surface: &Surface) -> Work<'_> {
    let sheet = surface.sheet();
    let (mut knots, mut samples) = ([0.0; BUFFER], [0.0; BUFFER]);
    let mut tensor = vec![0.0; LONGEST_TENSOR];
    let mut scratch = surface.scratch();
    Box::new(move || {
        let built =
            hullashlar::sheet_tensor(&sheet, &mut knots, &mut samples, &mut tensor, &mut scratch);
        let (_, length) = built.expect(ACCEPTED);
        tensor[length - 1]
    })
}

/// The call refuses a sheet whose tensor has more than 512 numbers: these have no more.
fn surfaces(sheets: &Sheets) -> [Line<'_>; 5] {
    let ask = |name, surface| line(name, our_surface(surface), sheet_calls::surface(surface));
    [
        ask("surface, sheet of 6", &sheets.line_of_6),
        ask("surface, sheet of 3×3", &sheets.three_by_three),
        ask("surface, sheet of 5×5", &sheets.five_by_five),
        ask("surface, sheet of 8×16", &sheets.small_two_axes),
        ask("surface, sheet of 256", &sheets.line_of_256),
    ]
}
