//! Lists of changes with refused ones among them, each beside a fresh build from the
//! samples that stand then.

use crate::grid::{Ends, Grid};
use crate::line::{counts, scratch, BEFORE};
use crate::surface::{build, query, sawtooth, Change, SCRATCH};

/// A list of changes on a grid, and a query behind it.
struct List<'a> {
    name: &'a str,
    grid: Grid,
    samples: Vec<f64>,
    changes: [Change; 6],
    asked: (&'a str, &'a [f64]),
}

impl List<'_> {
    fn lines(mut self) -> String {
        let length = self.samples.len() << self.grid.axes;
        let (mut text, mut tensor) = build(self.name, &self.grid, &self.samples, length);
        for change in self.changes {
            text += &self.change(&mut tensor, change);
        }
        let (name, coordinates) = self.asked;
        text + &query(name, &self.grid, &tensor, coordinates)
    }

    fn change(&mut self, tensor: &mut [f64], (place, sample): Change) -> String {
        let mut lent = vec![BEFORE; SCRATCH];
        let (refusal, lanes) = self.grid.change(tensor, &mut lent, place, sample);
        if refusal == 0 {
            let number = self.number(place);
            self.samples[number] = sample;
        }
        let (name, place) = (self.name, counts(&place));
        let (comparison, scratch) = (self.comparison(tensor), scratch(&lent));
        format!("{name}{place}: change {refusal} lanes {lanes}{comparison}{scratch}")
    }

    /// Where the sample of a place stands, last axis fastest.
    fn number(&self, place: [usize; 4]) -> usize {
        let axes = self.grid.points[..self.grid.axes].iter().zip(place);
        axes.fold(0, |number, (points, index)| number * points + index)
    }

    /// Whether a tensor has the bits of a fresh build.
    fn comparison(&self, tensor: &[f64]) -> &'static str {
        let mut fresh = vec![BEFORE; tensor.len()];
        let refusal = self
            .grid
            .build(&self.samples, &mut fresh, &mut [0.0; SCRATCH]);
        let mut pairs = tensor.iter().zip(&fresh);
        let same = pairs.all(|(number, fresh)| number.to_bits() == fresh.to_bits());
        assert!(refusal == 0 && same, "{} differs", self.name);
        " same"
    }
}

fn one_axis() -> String {
    let ends = Ends::of([0, 1], [0.0, -1.0]);
    List {
        name: "one axis",
        grid: Grid::new(&[(ends, &[0.0, 0.5, 2.0, 3.0, 7.0])]),
        samples: vec![1.0, -2.0, 0.25, 8.0, 3.0],
        changes: [
            ([4, 0, 0, 0], 0.1),
            ([5, 0, 0, 0], 0.2),
            ([0, 0, 0, 0], -3.5),
            ([2, 0, 0, 0], f64::NAN),
            ([2, 0, 0, 0], 1.7e308),
            ([2, 9, 9, 9], 1e-300),
        ],
        asked: ("one axis at 4", &[4.0]),
    }
    .lines()
}

fn two_axes() -> String {
    List {
        name: "two axes",
        grid: Grid::new(&[
            (Ends::NOT_A_KNOT, &[0.0, 1.0, 1.5, 4.0]),
            (Ends::second(0.5, -1.5), &[-1.0, 0.0, 3.0]),
        ]),
        samples: sawtooth(12),
        changes: [
            ([1, 1, 0, 0], 2.5),
            ([3, 2, 0, 0], -0.75),
            ([1, 3, 0, 0], 9.0),
            ([0, 0, 0, 0], f64::INFINITY),
            ([1, 1, 0, 0], -1e307),
            ([1, 1, 0, 0], 2.5),
        ],
        asked: ("two axes at 1.25 -2", &[1.25, -2.0]),
    }
    .lines()
}

fn three_axes() -> String {
    List {
        name: "three axes",
        grid: Grid::new(&[
            (Ends::first(1.0, -2.0), &[0.0, 1.0, 3.0]),
            (Ends::NOT_A_KNOT, &[0.0, 0.5, 2.0, 3.0]),
            (Ends::PERIODIC, &[-1.0, 1.0]),
        ]),
        samples: sawtooth(24),
        changes: [
            ([0, 0, 0, 0], 5.0),
            ([2, 3, 1, 0], -1.5),
            ([1, 2, 2, 0], 4.0),
            ([1, 2, 1, 0], 0.1),
            ([1, 2, 1, 0], 1e308),
            ([0, 1, 0, 7], -7.25),
        ],
        asked: ("three axes at 1 2.5 0", &[1.0, 2.5, 0.0]),
    }
    .lines()
}

fn four_axes() -> String {
    List {
        name: "four axes",
        grid: Grid::new(&[
            (Ends::NATURAL, &[0.0, 1.0]),
            (Ends::PERIODIC, &[0.0, 1.0, 2.5]),
            (Ends::first(0.5, 2.0), &[-3.0, 3.0]),
            (Ends::second(1.0, 0.0), &[10.0, 20.0]),
        ]),
        samples: sawtooth(24),
        changes: [
            ([1, 2, 1, 1], -4.0),
            ([0, 1, 0, 1], 0.3),
            ([0, 1, 0, 2], 0.4),
            ([1, 0, 1, 0], f64::NAN),
            ([1, 0, 1, 0], 6.5),
            ([0, 1, 0, 1], -0.0),
        ],
        asked: ("four axes at 0.5 1 4 12", &[0.5, 1.0, 4.0, 12.0]),
    }
    .lines()
}

/// What the program trial_change prints.
pub fn changes() -> String {
    [one_axis(), two_axes(), three_axes(), four_axes()].concat()
}
