//! Two changes of one tensor in both orders.

use crate::grid::{Ends, Grid};
use crate::surface::{build, change, Change};

/// The lines of a build and of two changes one after the other.
fn in_order(name: &str, grid: &Grid, samples: &[f64], changes: [Change; 2]) -> String {
    let (built, mut tensor) = build(name, grid, samples, samples.len() << grid.axes);
    let changed = changes.map(|asked| change(name, grid, &mut tensor, asked));
    built + &changed.concat()
}

fn square() -> String {
    let axis: (Ends, &[f64]) = (Ends::NATURAL, &[0.0, 1.0]);
    let grid = Grid::new(&[axis, axis]);
    let samples = [0.0, 0.0, 0.0, 1.0];
    let one = [([0, 1, 0, 0], 2.0), ([1, 0, 0, 0], 3.0)];
    let other = [([1, 0, 9, 9], 3.0), ([0, 1, 9, 9], 2.0)];
    [
        in_order("square, 0 1 then 1 0", &grid, &samples, one),
        in_order("square, 1 0 then 0 1", &grid, &samples, other),
    ]
    .concat()
}

fn steep() -> String {
    let grid = Grid::new(&[(Ends::NATURAL, &[0.0, 1.0])]);
    let samples = [-1e308, 0.0];
    let (first, second) = (([0; 4], 0.0), ([1, 0, 0, 0], 1e308));
    [
        in_order("steep, first then second", &grid, &samples, [first, second]),
        in_order("steep, second then first", &grid, &samples, [second, first]),
        build("steep, second alone", &grid, &[-1e308, 1e308], 4).0,
    ]
    .concat()
}

/// What the program trial_either_order prints.
pub fn either_order() -> String {
    [square(), steep()].concat()
}
