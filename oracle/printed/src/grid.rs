//! Ends and axes as the calls of the reading take them.

use crate::line::BEFORE;

/// The kinds of an axis's two ends, and their values.
#[derive(Clone, Copy)]
pub struct Ends {
    pub kinds: [u8; 2],
    pub values: [f64; 2],
}

impl Ends {
    pub const NOT_A_KNOT: Self = Self::of([0, 0], [0.0, 0.0]);
    pub const NATURAL: Self = Self::second(0.0, 0.0);
    pub const PERIODIC: Self = Self::of([3, 3], [0.0, 0.0]);

    pub const fn of(kinds: [u8; 2], values: [f64; 2]) -> Self {
        Self { kinds, values }
    }

    /// First derivatives.
    pub const fn first(lower: f64, upper: f64) -> Self {
        Self::of([1, 1], [lower, upper])
    }

    /// Second derivatives.
    pub const fn second(lower: f64, upper: f64) -> Self {
        Self::of([2, 2], [lower, upper])
    }
}

/// What stands in labels and refusals before a call.
const UNWRITTEN: usize = 9;

/// A call for many points.
pub type Many = fn(
    usize,
    &[usize],
    &[u8],
    &[f64],
    &[f64],
    &[f64],
    &mut [f64],
    &mut [usize],
    &mut [usize],
) -> usize;

/// The refusal of such a call, and the values, the labels and the refusals of three points.
pub type Three = (usize, [f64; 3], [usize; 12], [usize; 3]);

/// Axes with their knots.
#[derive(Clone)]
pub struct Grid {
    pub axes: usize,
    pub points: [usize; 4],
    pub kinds: [u8; 8],
    pub values: [f64; 8],
    pub knots: Vec<f64>,
}

impl Grid {
    /// The grid of axes, each with its ends and its knots.
    pub fn new(axes: &[(Ends, &[f64])]) -> Self {
        let mut grid = Self {
            axes: axes.len(),
            points: [0; 4],
            kinds: [0; 8],
            values: [0.0; 8],
            knots: Vec::new(),
        };
        for (axis, (ends, knots)) in axes.iter().enumerate() {
            let own = 2 * axis..2 * axis + 2;
            grid.points[axis] = knots.len();
            grid.kinds[own.clone()].copy_from_slice(&ends.kinds);
            grid.values[own].copy_from_slice(&ends.values);
            grid.knots.extend_from_slice(knots);
        }
        grid
    }

    /// The refusal of a build.
    pub fn build(&self, samples: &[f64], tensor: &mut [f64], scratch: &mut [f64]) -> usize {
        reading::build(
            self.axes,
            &self.points,
            &self.kinds,
            &self.values,
            &self.knots,
            samples,
            tensor,
            scratch,
        )
    }

    /// The refusal of a change, and how many lanes it solved.
    pub fn change(
        &self,
        tensor: &mut [f64],
        scratch: &mut [f64],
        place: [usize; 4],
        sample: f64,
    ) -> (usize, usize) {
        let mut lanes = [0];
        let refusal = reading::change(
            self.axes,
            &self.points,
            &self.kinds,
            &self.values,
            &self.knots,
            tensor,
            scratch,
            &place,
            sample,
            &mut lanes,
        );
        (refusal, lanes[0])
    }

    /// The refusal of a tensor that is verified, and what is told of it.
    pub fn verify(&self, tensor: &[f64], scratch: &mut [f64]) -> (usize, reading::Found) {
        reading::verified(
            self.axes,
            &self.points,
            &self.kinds,
            &self.values,
            &self.knots,
            tensor,
            scratch,
        )
    }

    /// The refusal of a query in the modes of the axes, its value and its labels.
    pub fn query(&self, modes: [u8; 4], tensor: &[f64], coordinates: &[f64]) -> Answer {
        self.ask(reading::query, modes, tensor, coordinates)
    }

    /// The same of the quick query.
    pub fn quick_query(&self, modes: [u8; 4], tensor: &[f64], coordinates: &[f64]) -> Answer {
        self.ask(reading::quick_query, modes, tensor, coordinates)
    }

    /// The same of the direct query.
    pub fn direct_query(&self, modes: [u8; 4], tensor: &[f64], coordinates: &[f64]) -> Answer {
        self.ask(reading::direct_query, modes, tensor, coordinates)
    }

    /// The refusal of the stepped surface, its value and its indices.
    pub fn stepped(&self, directions: [u8; 4], samples: &[f64], coordinates: &[f64]) -> Answer {
        self.ask(reading::stepped, directions, samples, coordinates)
    }

    /// What a call leaves of three points, with a number, a mode's or a direction's, for each axis.
    pub fn ask_three(
        &self,
        call: Many,
        numbers: [u8; 4],
        surface: &[f64],
        coordinates: &[f64],
    ) -> Three {
        let (mut values, mut labels, mut refusals) = ([BEFORE; 3], [UNWRITTEN; 12], [UNWRITTEN; 3]);
        let refusal = call(
            self.axes,
            &self.points,
            &numbers,
            &self.knots,
            surface,
            coordinates,
            &mut values,
            &mut labels,
            &mut refusals,
        );
        (refusal, values, labels, refusals)
    }

    fn ask(&self, query: Query, modes: [u8; 4], tensor: &[f64], coordinates: &[f64]) -> Answer {
        let (mut value, mut labels) = ([0.0], [0; 4]);
        let refusal = query(
            self.axes,
            &self.points,
            &modes,
            &self.knots,
            tensor,
            coordinates,
            &mut value,
            &mut labels,
        );
        (refusal, value[0], labels)
    }

    /// The same of the query of even axes, and the axis and the interval that it tells.
    pub fn even_query(
        &self,
        modes: [u8; 4],
        tensor: &[f64],
        coordinates: &[f64],
    ) -> (Answer, [usize; 2]) {
        let (mut value, mut labels, mut uneven) = ([0.0], [0; 4], [0; 2]);
        let refusal = reading::even_query(
            self.axes,
            &self.points,
            &modes,
            &self.knots,
            tensor,
            coordinates,
            &mut value,
            &mut labels,
            &mut uneven,
        );
        ((refusal, value[0], labels), uneven)
    }

    /// The refusal of the profile of even axes, and the axis and the place that it tells.
    pub fn even_profile(&self) -> (usize, [usize; 2]) {
        let mut told = [0; 2];
        let refusal = reading::even_profile(self.axes, &self.points, &self.knots, &mut told);
        (refusal, told)
    }
}

/// The refusal of a query, its value and its labels.
pub type Answer = (usize, f64, [usize; 4]);

/// A query, full or quick, as the reading has it.
type Query = fn(usize, &[usize], &[u8], &[f64], &[f64], &[f64], &mut [f64], &mut [usize]) -> usize;
