//! Axes that no call refuses: points, ends and knots.

use crate::numbers::{edge, far_below_zero, huge, not_finite, ordinary, subnormal};
use crate::overflow::largest_upper_knot;
use crate::random::Random;
use reading::{CURVE_SCRATCH, EXTEND, HOLD, LONGEST_TENSOR, REFUSE};

/// Shapes whose tensor has 4,096 numbers or an axis of 256 points.
const LARGE: [&[usize]; 12] = [
    &[256],
    &[255],
    &[32, 32],
    &[256, 4],
    &[4, 256],
    &[2, 256],
    &[31, 33],
    &[8, 8, 8],
    &[2, 2, 128],
    &[4, 4, 4, 4],
    &[2, 2, 2, 32],
    &[16, 4, 2, 2],
];

/// Shapes whose tensor has 512 numbers or nearly so many, and such as have a few more.
const AROUND_512: [&[usize]; 16] = [
    &[256],
    &[255],
    &[16, 8],
    &[2, 64],
    &[42, 3],
    &[4, 4, 4],
    &[2, 4, 8],
    &[3, 3, 7],
    &[2, 2, 2, 4],
    &[4, 2, 2, 2],
    &[3, 43],
    &[43, 3],
    &[26, 5],
    &[2, 3, 11],
    &[2, 2, 3, 3],
    &[3, 2, 2, 3],
];

/// Axes as the calls take them; what stands past the axes in use is not read.
#[derive(Debug, Clone)]
pub struct Grid {
    pub axes: usize,
    pub points: [usize; 4],
    pub kinds: [u8; 8],
    pub values: [f64; 8],
    pub knots: Vec<f64>,
}

impl Grid {
    /// A grid of one to four axes.
    pub fn generate(random: &mut Random) -> Self {
        let shape = shape(random);
        Self::of_shape(random, &shape)
    }

    /// A grid of any shape, or one whose tensor has about as many numbers as that of a surface.
    pub fn around_the_longest_of_a_surface(random: &mut Random) -> Self {
        if random.percent(15) {
            let shape = random.pick(&AROUND_512);
            return Self::of_shape(random, shape);
        }
        Self::generate(random)
    }

    /// A grid of one axis.
    pub fn line(random: &mut Random) -> Self {
        let points = match random.below(100) {
            0 => random.pick(&[255, 256]),
            1..=2 => random.between(65, 254),
            3..=5 => random.between(9, 64),
            6..=39 => random.between(2, 3),
            _ => random.between(2, 8),
        };
        Self::of_shape(random, &[points])
    }

    /// A grid of a given shape, with kinds that its points allow.
    pub fn of_shape(random: &mut Random, shape: &[usize]) -> Self {
        let mut grid = Self {
            axes: shape.len(),
            points: [0; 4].map(|_| random.pick(&[0, 1, 2, 257, usize::MAX])),
            kinds: [0; 8].map(|_| random.pick(&[0, 1, 2, 3, 4, 255])),
            values: [0.0; 8].map(|_| not_finite(random)),
            knots: Vec::new(),
        };
        for (axis, points) in shape.iter().enumerate() {
            grid.points[axis] = *points;
            grid.set_ends(random, axis);
            let knots = rising_knots(random, *points);
            grid.knots.extend(knots);
        }
        grid
    }

    /// Kinds that the axis has points for. A kind without a number keeps the one
    /// that is not read.
    fn set_ends(&mut self, random: &mut Random, axis: usize) {
        let kinds = ends(random, self.points[axis]);
        for (end, kind) in kinds.into_iter().enumerate() {
            self.kinds[2 * axis + end] = kind;
            if matches!(kind, 1 | 2) {
                self.values[2 * axis + end] = end_value(random);
            }
        }
    }

    /// How many samples the axes in use have.
    pub fn samples(&self) -> usize {
        self.points[..self.axes].iter().product()
    }

    /// How many numbers the tensor holds.
    pub fn tensor(&self) -> usize {
        self.samples() << self.axes
    }

    /// The tensor of samples, or what stood in its place where their build is refused.
    pub fn built_over(&self, mut tensor: Vec<f64>, samples: &[f64]) -> Vec<f64> {
        reading::build(
            self.axes,
            &self.points,
            &self.kinds,
            &self.values,
            &self.knots,
            samples,
            &mut tensor,
            &mut vec![0.0; self.tensor() + CURVE_SCRATCH],
        );
        tensor
    }

    /// A coordinate for every axis: in a cell, on a knot or beyond the grid.
    pub fn coordinates(&self, random: &mut Random) -> Vec<f64> {
        let mut rest = self.knots.as_slice();
        let mut coordinates = Vec::new();
        for points in &self.points[..self.axes] {
            let (knots, behind) = rest.split_at(*points);
            coordinates.push(coordinate(random, knots));
            rest = behind;
        }
        coordinates
    }

    /// A mode for every axis; past the axes in use stands anything.
    pub fn modes(&self, random: &mut Random) -> [u8; 4] {
        let mut modes = [0; 4].map(|_| random.pick(&[0, 1, 2, 3, 255]));
        let same = random.percent(30);
        let of_all = mode(random);
        for slot in &mut modes[..self.axes] {
            *slot = if same { of_all } else { mode(random) };
        }
        modes
    }

    /// A place on the grid; what stands past the axes in use is not read.
    pub fn place(&self, random: &mut Random) -> [usize; 4] {
        let mut place = [usize::MAX; 4];
        for (index, points) in place.iter_mut().zip(&self.points[..self.axes]) {
            *index = random.below(*points);
        }
        place
    }

    /// The number of the sample at a place, last axis fastest.
    pub fn number(&self, place: &[usize]) -> usize {
        let axes = self.points[..self.axes].iter().zip(place);
        axes.fold(0, |number, (points, index)| number * points + index)
    }
}

/// Kinds of both ends that so many points are enough for.
fn ends(random: &mut Random, points: usize) -> [u8; 2] {
    if random.percent(20) {
        return [3, 3];
    }
    loop {
        let kinds = [random.below(3) as u8, random.below(3) as u8];
        let dropped = kinds.iter().filter(|kind| **kind == 0).count();
        if dropped == 0 || points >= 2 + dropped {
            return kinds;
        }
    }
}

/// The value of an end: an ordinary number or a zero, seldom one at an edge of the
/// format.
fn end_value(random: &mut Random) -> f64 {
    match random.below(100) {
        0 => huge(random),
        1 => edge(random),
        2..=3 => subnormal(random),
        4..=51 => ordinary(random),
        _ => random.pick(&[0.0, -0.0]),
    }
}

/// The points of each axis: small, now and then a few more, seldom the most.
fn shape(random: &mut Random) -> Vec<usize> {
    match random.below(400) {
        0 => return random.pick(&LARGE).to_vec(),
        1..=2 => return nearly_full(random),
        3..=4 => return vec![random.between(65, 254)],
        _ => (),
    }
    let axes = random.pick(&[1, 1, 1, 2, 2, 2, 2, 3, 3, 4]);
    let most = [9, 5, 4, 3][axes - 1];
    (0..axes).map(|_| random.between(2, most)).collect()
}

/// Two to four axes that leave little of the longest tensor unused.
fn nearly_full(random: &mut Random) -> Vec<usize> {
    let axes = random.between(2, 4);
    let mut samples = LONGEST_TENSOR >> axes;
    let mut shape = Vec::new();
    for further in (0..axes).rev() {
        let most = (samples >> further).min(256);
        let points = if further == 0 {
            most
        } else {
            random.between(2, most)
        };
        shape.push(points);
        samples /= points;
    }
    shape.rotate_left(random.below(axes));
    shape
}

/// A mode of an axis: refused less often, so that most calls are accepted.
fn mode(random: &mut Random) -> u8 {
    random.pick(&[EXTEND, EXTEND, HOLD, HOLD, REFUSE])
}

/// A point of one axis.
fn coordinate(random: &mut Random, knots: &[f64]) -> f64 {
    let lower = random.below(knots.len() - 1);
    let step = knots[lower + 1] - knots[lower];
    match random.below(12) {
        0..=2 => random.pick(knots),
        3 => beside(random, knots),
        4 => at_an_end(random, knots),
        5 => knots[0] - step * random.between(1, 3) as f64,
        6 => knots[knots.len() - 1] + step * random.between(1, 3) as f64,
        7 if random.percent(20) => edge(random),
        7 => ordinary(random),
        _ => knots[lower] + step * (random.between(1, 15) as f64 / 16.0),
    }
}

/// The neighbour of a knot, on either side.
fn beside(random: &mut Random, knots: &[f64]) -> f64 {
    let knot = random.pick(knots);
    random.pick(&[knot.next_down(), knot.next_up()])
}

/// An end knot, its neighbour on either side, or the same with its sign changed: a zero is
/// still at the knot then.
fn at_an_end(random: &mut Random, knots: &[f64]) -> f64 {
    let end = random.pick(&[knots[0], knots[knots.len() - 1]]);
    random.pick(&[end, end.next_down(), end.next_up(), -end])
}

/// Knots that rise strictly, by finite steps.
fn rising_knots(random: &mut Random, count: usize) -> Vec<f64> {
    let knots = match random.below(40) {
        0 => around_the_largest_step(random, count),
        1..=2 => neighbours(random, count),
        3..=4 => stepped(random, count, -1.6e308, |_| 1.25e306),
        5..=6 => stepped(random, count, -0.0, |random| {
            2f64.powi(random.between(0, 60) as i32 - 30)
        }),
        7..=20 => stepped(random, count, 0.0, |_| 1.0),
        21..=28 => {
            let first = ordinary(random);
            stepped(random, count, first, |random| {
                random.between(1, 12) as f64 / 4.0
            })
        }
        _ => {
            let first = ordinary(random);
            stepped(random, count, first, |random| 0.01 + ordinary(random).abs())
        }
    };
    let rising = knots.windows(2).all(|pair| pair[0] < pair[1]);
    if rising {
        knots
    } else {
        stepped(random, count, 0.0, |_| 1.0)
    }
}

/// Knots from a first one, each a step above the one before.
fn stepped(
    random: &mut Random,
    count: usize,
    first: f64,
    step: fn(&mut Random) -> f64,
) -> Vec<f64> {
    let mut knot = first;
    let mut knots = vec![knot];
    for _ in 1..count {
        knot += step(random);
        knots.push(knot);
    }
    knots
}

/// Knots with no number, or only a few, of the format between them.
fn neighbours(random: &mut Random, count: usize) -> Vec<f64> {
    let mut pattern = random.pick(&[0, 1.0f64.to_bits(), 1e-300f64.to_bits()]);
    let mut knots = Vec::new();
    for _ in 0..count {
        knots.push(f64::from_bits(pattern));
        pattern += random.between(1, 3) as u64;
    }
    knots
}

/// Knots that rise once by the largest finite step, and else to the next number of
/// the format.
fn around_the_largest_step(random: &mut Random, count: usize) -> Vec<f64> {
    let lower = far_below_zero(random);
    let [upper, _] = largest_upper_knot(lower);
    around_a_step(random, count, lower, upper)
}

/// The same knots with the next larger step, which overflows.
pub fn around_an_overflow(random: &mut Random, count: usize) -> Vec<f64> {
    let lower = far_below_zero(random);
    let [_, upper] = largest_upper_knot(lower);
    around_a_step(random, count, lower, upper)
}

fn around_a_step(random: &mut Random, count: usize, lower: f64, upper: f64) -> Vec<f64> {
    let mut below = vec![lower];
    for at in 0..random.below(count - 1) {
        below.push(below[at].next_down());
    }
    let mut knots: Vec<f64> = below.into_iter().rev().collect();
    let mut knot = upper;
    while knots.len() < count {
        knots.push(knot);
        knot = knot.next_up();
    }
    knots
}
