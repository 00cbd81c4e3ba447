//! Tensors verified: as built, with a sample overwritten, repaired by a change, damaged where
//! no change reaches, with another zero, and refused.

use crate::grid::{Ends, Grid};
use crate::line::{counts, scratch, BEFORE};
use crate::surface::{build, change, SCRATCH};

/// The line of a tensor that is verified.
fn verify(name: &str, grid: &Grid, tensor: &[f64]) -> String {
    let mut lent = vec![BEFORE; SCRATCH];
    let (refusal, found) = grid.verify(tensor, &mut lent);
    let whole = if found.whole { "whole" } else { "not whole" };
    let (place, mask, differing) = (counts(&found.place), found.mask, found.differing);
    let scratch = scratch(&lent);
    format!(
        "{name}: verify {refusal} {whole} place{place} mask {mask} differing {differing}{scratch}"
    )
}

fn overwritten() -> String {
    let axis: (Ends, &[f64]) = (Ends::NATURAL, &[0.0, 1.0, 2.0]);
    let grid = Grid::new(&[axis, axis]);
    let samples = [0.0, 1.0, 0.0, 1.0, 3.0, 1.0, 0.0, 1.0, 0.0];
    let (mut text, mut tensor) = build("hill", &grid, &samples, 36);
    text += &verify("hill as built", &grid, &tensor);
    tensor[16] = 5.0;
    text += &verify("hill, sample 1 1 overwritten", &grid, &tensor);
    let stands = ([1, 1, 0, 0], 5.0);
    text += &change("hill, sample 1 1 that stands", &grid, &mut tensor, stands);
    text + &verify("hill, changed so", &grid, &tensor)
}

fn out_of_reach() -> String {
    let axis: (Ends, &[f64]) = (Ends::NATURAL, &[0.0, 1.0]);
    let grid = Grid::new(&[axis, axis]);
    let samples = [0.0, 0.0, 0.0, 1.0];
    let (mut text, mut tensor) = build("square", &grid, &samples, 16);
    tensor[1] = 9.0;
    text += &verify("square, slope at 0 0 damaged", &grid, &tensor);
    let stands = ([1, 1, 0, 0], 1.0);
    text += &change("square, sample 1 1 that stands", &grid, &mut tensor, stands);
    text += &verify("square, changed so", &grid, &tensor);
    let (line, tensor) = build("square again", &grid, &samples, 16);
    text + &line + &verify("square, built again", &grid, &tensor)
}

fn other_zero() -> String {
    let grid = Grid::new(&[(Ends::NATURAL, &[0.0, 1.0, 2.0])]);
    let (text, mut tensor) = build("flat", &grid, &[1.0; 3], 6);
    tensor[3] = -0.0;
    text + &verify("flat, slope 1 of -0.0", &grid, &tensor)
}

fn refused() -> String {
    let three: &[f64] = &[0.0, 1.0, 2.0];
    let grid = Grid::new(&[(Ends::NATURAL, three)]);
    let mut none = grid.clone();
    none.axes = 0;
    let equal = Grid::new(&[(Ends::NATURAL, &[0.0, 1.0, 1.0])]);
    let few = Grid::new(&[(Ends::NOT_A_KNOT, three)]);
    let steep = [1.7e308, 0.0, -1.7e308, 0.0, 1.7e308, 0.0];
    [
        verify("no axis", &none, &[0.0; 6]),
        verify("five numbers of six", &grid, &[0.0; 5]),
        verify(
            "a slope of NaN",
            &grid,
            &[0.0, 0.0, 0.0, f64::NAN, 0.0, 0.0],
        ),
        verify("equal knots", &equal, &[0.0; 6]),
        verify("three points not a knot", &few, &[0.0; 6]),
        verify("a build that overflows", &grid, &steep),
    ]
    .concat()
}

/// What the program trial_verify prints.
pub fn verified() -> String {
    [overwritten(), out_of_reach(), other_zero(), refused()].concat()
}
