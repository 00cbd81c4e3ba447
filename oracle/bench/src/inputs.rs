//! The surfaces that are measured, in the form of the archive and in the Rust's.

use crate::hullashlar::{Axes, SCRATCH};
#[cfg(limit)]
use crate::limit::Sheets;
use crate::sheet::packed;
use ninterp_quick::{
    compute_corner_cache, compute_m, ArrayD, ArrayView1, Broadcastable, CubicC2BoundaryConditions,
    IxDyn,
};

/// The sample that a change stores in the middle of a surface.
pub const CHANGED: f64 = 9.25;

/// The condition of an axis in the Rust's words.
pub type Condition = CubicC2BoundaryConditions<f64>;

/// The ends that every axis of a surface has.
#[derive(Clone, Copy)]
pub enum Ends {
    /// Second derivatives zero.
    Natural,
    /// NotAKnot twice.
    NotAKnot,
    /// Periodic.
    Periodic,
}

impl Ends {
    /// The kind of both ends as a number.
    fn kind(self) -> u8 {
        match self {
            Self::NotAKnot => 0,
            Self::Natural => 2,
            Self::Periodic => 3,
        }
    }

    /// The same in the Rust's words.
    fn condition(self) -> Condition {
        match self {
            Self::NotAKnot => Condition::not_a_knot(),
            Self::Natural => Condition::second_derivative(0.0, 0.0),
            Self::Periodic => Condition::Periodic,
        }
    }
}

/// Samples on a grid.
#[derive(Clone)]
pub struct Surface {
    pub axes: Axes,
    pub knots: Vec<f64>,
    pub samples: Vec<f64>,
    /// The edition of its sheet.
    pub edition: usize,
    ends: Ends,
}

impl Surface {
    /// A surface with so many points on each axis; steps and samples are not all alike.
    pub fn new(points: &[usize], ends: Ends) -> Self {
        let mut axes = Axes {
            count: points.len(),
            kinds: [ends.kind(); 8],
            ..Axes::default()
        };
        axes.points[..points.len()].copy_from_slice(points);
        let knots = points.iter().flat_map(|count| (0..*count).map(knot));
        Self {
            knots: knots.collect(),
            samples: (0..axes.samples_length()).map(sample).collect(),
            axes,
            edition: 1,
            ends,
        }
    }

    /// The same surface over even knots, in steps of three quarters.
    fn even(&self) -> Self {
        let mut even = self.clone();
        let points = self.points().iter();
        let knots = points.flat_map(|count| (0..*count).map(|index| 0.75 * index as f64));
        even.knots = knots.collect();
        even
    }

    /// The knots of each axis in the Rust's form.
    pub fn knots_by_axis(&self) -> Vec<ArrayView1<'_, f64>> {
        let mut rest = self.knots.as_slice();
        let mut by_axis = Vec::new();
        for points in self.points() {
            let (axis, behind) = rest.split_at(*points);
            by_axis.push(axis.into());
            rest = behind;
        }
        by_axis
    }

    /// The points of the axes in use.
    pub fn points(&self) -> &[usize] {
        &self.axes.points[..self.axes.count]
    }

    /// The samples in the Rust's form.
    pub fn grid(&self) -> ArrayD<f64> {
        self.grid_of(self.samples.clone())
    }

    /// Other samples in the same form.
    pub fn grid_of(&self, samples: Vec<f64>) -> ArrayD<f64> {
        ArrayD::from_shape_vec(IxDyn(self.points()), samples)
            .expect("there is a sample for every place")
    }

    /// The conditions in the Rust's form.
    pub fn conditions(&self) -> Broadcastable<Condition> {
        Broadcastable::Broadcast(self.ends.condition())
    }

    /// The tensor as the Rust builds it.
    pub fn tensor(&self) -> ArrayD<f64> {
        compute_corner_cache(
            &self.knots_by_axis(),
            self.grid().view(),
            &self.conditions(),
        )
    }

    /// Scratch as long as a build, a change or a verification wants it.
    pub fn scratch(&self) -> Vec<f64> {
        vec![0.0; self.axes.tensor_length() + SCRATCH]
    }

    /// A point within the middle cell of every axis.
    pub fn middle_point(&self) -> Vec<f64> {
        let by_axis = self.knots_by_axis();
        let middle = by_axis.iter().map(|knots| knots[knots.len() / 2] + 0.4);
        middle.collect()
    }

    /// The place in the middle of the grid.
    pub fn middle_place(&self) -> [usize; 4] {
        self.axes.points.map(|points| points / 2)
    }

    /// The same surface with the changed sample in the middle.
    fn changed(&self) -> Self {
        let mut changed = self.clone();
        let axes = self.middle_place().into_iter().zip(self.points());
        let number = axes.fold(0, |number, (index, points)| number * points + index);
        changed.samples[number] = CHANGED;
        changed
    }

    /// The moments of a surface of one axis, as the Rust solves them.
    pub fn moments(&self) -> Vec<f64> {
        compute_m(&self.knots, &self.samples, &self.ends.condition())
    }

    /// The patterns of that point, and 0 past its axes.
    pub fn middle_patterns(&self) -> [u64; 4] {
        let mut patterns = [0; 4];
        for (pattern, coordinate) in patterns.iter_mut().zip(self.middle_point()) {
            *pattern = coordinate.to_bits();
        }
        patterns
    }

    /// The surface as a packed sheet.
    pub fn sheet(&self) -> Vec<u8> {
        packed(self.edition, &self.axes, &self.knots, &self.samples)
    }

    /// The zero bits behind the last sample of that sheet. Before its numbers an axis has 12 bits, or 14 in edition 2.
    pub fn bits_behind(&self) -> usize {
        let head = if self.edition == 2 { 14 } else { 12 };
        let bits = 7 + head * self.axes.count;
        bits.next_multiple_of(8) - bits
    }
}

/// Knot number so many of an axis.
pub fn knot(index: usize) -> f64 {
    index as f64 + 0.125 * (index % 3) as f64
}

/// Sample number so many.
pub fn sample(number: usize) -> f64 {
    (7 * number % 11) as f64 / 2.0
}

/// Everything that is measured.
pub struct Inputs {
    pub line_of_2: Surface,
    pub line_of_16: Surface,
    pub line_of_256: Surface,
    pub two_axes: Surface,
    pub three_axes: Surface,
    pub four_axes: Surface,
    pub small_two_axes: Surface,
    pub small_four_axes: Surface,
    pub two_axes_changed: Surface,
    pub four_axes_changed: Surface,
    pub two_axes_periodic: Surface,
    pub even_line_of_16: Surface,
    pub even_line_of_256: Surface,
    pub even_two_axes: Surface,
    pub even_three_axes: Surface,
    pub even_four_axes: Surface,
    /// Those of the limit's lines alone.
    #[cfg(limit)]
    pub sheets: Sheets,
}

impl Inputs {
    pub fn new() -> Self {
        let two_axes = Surface::new(&[16, 16], Ends::Natural);
        let four_axes = Surface::new(&[4, 4, 4, 4], Ends::Natural);
        let line_of_16 = Surface::new(&[16], Ends::Natural);
        let line_of_256 = Surface::new(&[256], Ends::Natural);
        let three_axes = Surface::new(&[6, 6, 6], Ends::NotAKnot);
        Self {
            line_of_2: Surface::new(&[2], Ends::Natural),
            small_two_axes: Surface::new(&[8, 16], Ends::Natural),
            small_four_axes: Surface::new(&[2, 2, 2, 4], Ends::Natural),
            two_axes_changed: two_axes.changed(),
            four_axes_changed: four_axes.changed(),
            two_axes_periodic: Surface::new(&[16, 16], Ends::Periodic),
            even_line_of_16: line_of_16.even(),
            even_line_of_256: line_of_256.even(),
            even_two_axes: two_axes.even(),
            even_three_axes: three_axes.even(),
            even_four_axes: four_axes.even(),
            #[cfg(limit)]
            sheets: Sheets::new(),
            line_of_16,
            line_of_256,
            two_axes,
            three_axes,
            four_axes,
        }
    }

    /// Surfaces of one to four axes.
    #[cfg(limit)]
    pub fn surfaces(&self) -> [&Surface; 5] {
        [
            &self.line_of_16,
            &self.line_of_256,
            &self.two_axes,
            &self.three_axes,
            &self.four_axes,
        ]
    }

    /// Surfaces of one to four axes whose knots are even.
    pub fn even_surfaces(&self) -> [&Surface; 5] {
        [
            &self.even_line_of_16,
            &self.even_line_of_256,
            &self.even_two_axes,
            &self.even_three_axes,
            &self.even_four_axes,
        ]
    }
}
