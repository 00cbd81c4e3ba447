//! The grids over which the stack is measured. The way through the code is decided by the ends of an axis, by how many
//! points it has while they are few, and by whether its lanes are solved four at a time: so there is every pair of ends
//! on few points, and some grids of every larger sort.

use crate::hullashlar::{build, moments, write, Axes, LONGEST_SHEET, LONGEST_TENSOR, SCRATCH};
use crate::inputs::{knot, sample};

/// The kinds of the two ends of an axis.
type Ends = [u8; 2];

/// Every pair of ends: not-a-knot is 0, a first derivative 1, a second one 2, and periodic, at both ends or at none, 3.
const EVERY_PAIR: [Ends; 10] = [
    [0, 0],
    [0, 1],
    [0, 2],
    [1, 0],
    [1, 1],
    [1, 2],
    [2, 0],
    [2, 1],
    [2, 2],
    [3, 3],
];

/// Larger grids, of one to four axes: on both sides of the 128 points up to which four lanes are solved at a time, with
/// numbers of lanes that are no fours, and the largest.
const LARGER: [&[usize]; 23] = [
    &[6],
    &[7],
    &[16],
    &[128],
    &[129],
    &[256],
    &[16, 16],
    &[2, 128],
    &[128, 2],
    &[3, 129],
    &[129, 3],
    &[256, 4],
    &[4, 256],
    &[32, 32],
    &[2, 2, 2],
    &[2, 3, 4],
    &[5, 4, 3],
    &[8, 8, 8],
    &[2, 2, 128],
    &[2, 2, 2, 2],
    &[2, 3, 4, 5],
    &[5, 4, 3, 2],
    &[4, 4, 4, 4],
];

/// Samples on a grid that no call refuses.
#[derive(Clone)]
pub struct Shape {
    pub axes: Axes,
    pub knots: Vec<f64>,
    pub samples: Vec<f64>,
}

impl Shape {
    /// So many points and these ends on each axis, where the points are enough for them.
    fn new(points: &[usize], ends: &[Ends]) -> Option<Self> {
        let enough = points.iter().zip(ends).all(|(n, ends)| fewest(*ends) <= *n);
        if !enough {
            return None;
        }
        let mut axes = Axes {
            count: points.len(),
            values: [0.5; 8],
            ..Axes::default()
        };
        axes.points[..points.len()].copy_from_slice(points);
        axes.kinds[..2 * ends.len()].copy_from_slice(&ends.concat());
        let knots = points.iter().flat_map(|n| (0..*n).map(knot));
        Some(Self {
            knots: knots.collect(),
            samples: (0..axes.samples_length()).map(sample).collect(),
            axes,
        })
    }

    /// The same on even knots.
    pub fn even(&self) -> Self {
        let points = self.points().iter();
        let knots = points.flat_map(|n| (0..*n).map(|index| 0.75 * index as f64));
        Self {
            knots: knots.collect(),
            ..self.clone()
        }
    }

    /// The same with one mode on every axis.
    pub fn in_mode(&self, mode: u8) -> Self {
        let mut held = self.clone();
        held.axes.modes[..self.axes.count].fill(mode);
        held
    }

    pub fn points(&self) -> &[usize] {
        &self.axes.points[..self.axes.count]
    }

    pub fn scratch(&self) -> Vec<f64> {
        vec![0.0; self.axes.tensor_length() + SCRATCH]
    }

    pub fn tensor(&self) -> Vec<f64> {
        let mut tensor = vec![0.0; self.axes.tensor_length()];
        let mut scratch = self.scratch();
        build(
            &self.axes,
            &self.knots,
            &self.samples,
            &mut tensor,
            &mut scratch,
        )
        .expect("no shape is refused");
        tensor
    }

    /// The two ends of a shape of one axis.
    pub fn ends(&self) -> (Ends, [f64; 2]) {
        let Axes { kinds, values, .. } = self.axes;
        ([kinds[0], kinds[1]], [values[0], values[1]])
    }

    /// The moments of a shape of one axis.
    pub fn moments(&self) -> Vec<f64> {
        let mut outcome = vec![0.0; self.knots.len()];
        let mut scratch = vec![0.0; SCRATCH];
        let (kinds, values) = self.ends();
        moments(
            &self.knots,
            &self.samples,
            kinds,
            values,
            &mut outcome,
            &mut scratch,
        )
        .expect("no shape is refused");
        outcome
    }

    /// The sheet in an edition.
    pub fn sheet(&self, edition: usize) -> Vec<u8> {
        let mut bytes = vec![0; LONGEST_SHEET];
        let length = write(edition, &self.axes, &self.knots, &self.samples, &mut bytes);
        bytes.truncate(length.expect("no shape is refused"));
        bytes
    }

    /// The first place, the middle one and the last.
    pub fn places(&self) -> [[usize; 4]; 3] {
        let points = self.axes.points;
        [
            [0; 4],
            points.map(|n| n / 2),
            points.map(|n| n.saturating_sub(1)),
        ]
    }

    /// Points on the last knots, within the first cells, below all knots, and above them.
    pub fn coordinates(&self) -> [Vec<f64>; 4] {
        let mut first = 0;
        let mut all = [const { Vec::new() }; 4];
        for n in self.points() {
            let (low, high) = (self.knots[first], self.knots[first + n - 1]);
            let here = [high, low + 0.4, low - 0.4, high + 0.4];
            all.iter_mut()
                .zip(here)
                .for_each(|(point, coordinate)| point.push(coordinate));
            first += n;
        }
        all
    }
}

/// The fewest points that two ends are accepted on.
fn fewest(ends: Ends) -> usize {
    2 + ends.iter().filter(|kind| **kind == 0).count()
}

/// All shapes of one axis.
pub fn lines(shapes: &[Shape]) -> Vec<&Shape> {
    let lines = shapes.iter().filter(|shape| shape.axes.count == 1);
    lines.collect()
}

/// All shapes: on one axis and on two every pair of ends on each with 2 to 5 points, and the larger grids with each pair on
/// all axes, and on each axis alone beside second derivatives.
pub fn shapes() -> Vec<Shape> {
    let mut shapes = Vec::new();
    for first in 2..=5 {
        for ends in EVERY_PAIR {
            shapes.extend(Shape::new(&[first], &[ends]));
            shapes.extend(with_a_second_axis(first, ends));
        }
    }
    for points in LARGER {
        for ends in EVERY_PAIR {
            shapes.extend(Shape::new(points, &vec![ends; points.len()]));
            for axis in 0..points.len() {
                let mut others = vec![[2, 2]; points.len()];
                others[axis] = ends;
                shapes.extend(Shape::new(points, &others));
            }
        }
    }
    assert!(shapes
        .iter()
        .all(|shape| shape.axes.tensor_length() <= LONGEST_TENSOR));
    shapes
}

fn with_a_second_axis(first: usize, ends: Ends) -> impl Iterator<Item = Shape> {
    let second = (2..=5).flat_map(|n| EVERY_PAIR.map(|ends| (n, ends)));
    second.filter_map(move |(n, others)| Shape::new(&[first, n], &[ends, others]))
}
