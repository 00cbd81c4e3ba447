//! The calls on a grid as lines, and the worked examples of them.

use crate::grid::{Ends, Grid};
use crate::line::{counts, output, patterns, scratch, BEFORE};
use reading::{EXTEND, HOLD, REFUSE};

/// Scratch for every tensor of these examples but the large ones.
pub const SCRATCH: usize = 2500;

/// The line of a build with every number of the tensor, and the tensor.
pub fn build(name: &str, grid: &Grid, samples: &[f64], length: usize) -> (String, Vec<f64>) {
    let mut tensor = vec![BEFORE; length];
    let mut lent = vec![BEFORE; SCRATCH];
    let refusal = grid.build(samples, &mut tensor, &mut lent);
    let (numbers, scratch) = (output(refusal, &tensor), scratch(&lent));
    let line = format!("{name}: build {refusal}{numbers}{scratch}");
    (line, tensor)
}

/// A changed sample: its place and its new number.
pub type Change = ([usize; 4], f64);

/// The line of a change with every number of the tensor.
pub fn change(name: &str, grid: &Grid, tensor: &mut [f64], (place, sample): Change) -> String {
    let mut lent = vec![BEFORE; SCRATCH];
    let (refusal, lanes) = grid.change(tensor, &mut lent, place, sample);
    let (numbers, scratch) = (patterns(tensor), scratch(&lent));
    format!("{name}: change {refusal} lanes {lanes}{numbers}{scratch}")
}

/// The line of a query that extends every axis.
pub fn query(name: &str, grid: &Grid, tensor: &[f64], coordinates: &[f64]) -> String {
    query_in_mode(name, grid, EXTEND, tensor, coordinates)
}

/// The line of a query with one mode for every axis.
pub fn query_in_mode(
    name: &str,
    grid: &Grid,
    mode: u8,
    tensor: &[f64],
    coordinates: &[f64],
) -> String {
    let (refusal, value, labels) = grid.query([mode; 4], tensor, coordinates);
    let (value, labels) = (patterns(&[value]), counts(&labels));
    format!("{name}: query {refusal}{value} labels{labels}\n")
}

/// So many samples: from 0 up by 3.25, and down by 10 where that passes 10.
pub fn sawtooth(count: usize) -> Vec<f64> {
    let mut numbers = vec![0.0; count];
    for at in 1..count {
        let up = numbers[at - 1] + 3.25;
        numbers[at] = if up > 10.0 { up - 10.0 } else { up };
    }
    numbers
}

fn square() -> String {
    let axis: (Ends, &[f64]) = (Ends::NATURAL, &[0.0, 1.0]);
    let grid = Grid::new(&[axis, axis]);
    let (built, mut tensor) = build("square", &grid, &[0.0, 0.0, 0.0, 1.0], 16);
    let asked = query("square at 0.5 0.5", &grid, &tensor, &[0.5, 0.5]);
    let name = "square, sample 0 1 becomes 2";
    built + &asked + &change(name, &grid, &mut tensor, ([0, 1, 0, 0], 2.0))
}

fn labels() -> String {
    let grid = Grid::new(&[(Ends::NATURAL, &[0.0, 1.0, 2.0])]);
    let (built, tensor) = build("knots 0 1 2", &grid, &[0.0, 1.0, 0.0], 6);
    let at = |name, point| query(name, &grid, &tensor, &[point]);
    [
        built,
        at("knots 0 1 2 at 1", 1.0),
        at("knots 0 1 2 at 2", 2.0),
        at("knots 0 1 2 at -1", -1.0),
        at("knots 0 1 2 at NaN", f64::NAN),
    ]
    .concat()
}

fn modes() -> String {
    let grid = Grid::new(&[(Ends::NATURAL, &[0.0, 1.0, 2.0])]);
    let (_, tensor) = build("knots 0 1 2", &grid, &[0.0, 1.0, 0.0], 6);
    let mut lines = String::new();
    for (word, mode) in [("extend", EXTEND), ("hold", HOLD), ("refuse", REFUSE)] {
        for point in [-1.0, 0.0, 2.0, 3.0] {
            let name = format!("{word} at {point}");
            lines += &query_in_mode(&name, &grid, mode, &tensor, &[point]);
        }
    }
    lines
}

/// The line of a build on two natural axes near the limit, with its first numbers.
fn large(name: &str, points: [usize; 2], samples: &[f64]) -> String {
    let knots = points.map(|count| (0..count).map(|knot| knot as f64).collect::<Vec<f64>>());
    let grid = Grid::new(&[(Ends::NATURAL, &knots[0]), (Ends::NATURAL, &knots[1])]);
    let mut tensor = vec![BEFORE; 4 * samples.len()];
    let mut lent = vec![BEFORE; 6144];
    let refusal = grid.build(samples, &mut tensor, &mut lent);
    let (numbers, scratch) = (output(refusal, &tensor[..8]), scratch(&lent));
    format!("{name}: build {refusal}{numbers}{scratch}")
}

/// A build with another number of axes.
fn of_axes(name: &str, axes: usize) -> String {
    let axis: (Ends, &[f64]) = (Ends::NATURAL, &[0.0, 0.0]);
    let mut grid = Grid::new(&[axis; 4]);
    grid.axes = axes;
    build(name, &grid, &[0.0; 32], 16).0
}

/// What the program trial_tensor prints.
pub fn examples() -> String {
    [
        square(),
        labels(),
        modes(),
        large("32 by 32 points", [32, 32], &sawtooth(1024)),
        large("25 by 41 points", [25, 41], &[0.0; 1025]),
        of_axes("five axes", 5),
        of_axes("no axis", 0),
    ]
    .concat()
}
