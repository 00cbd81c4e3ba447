//! The grids that the tests ask.

use hullashlar::{build, kind, mode, Axes, SCRATCH};

/// A grid, its samples and its tensor.
pub struct Grid {
    pub axes: Axes,
    pub knots: Vec<f64>,
    pub samples: Vec<f64>,
    pub tensor: Vec<f64>,
}

impl Grid {
    pub fn scratch(&self) -> Vec<f64> {
        vec![0.0; self.tensor.len() + SCRATCH]
    }
}

/// A grid of a function on knots of up to four axes, natural and held at its ends.
pub fn grid(knots: &[&[f64]], of: impl Fn(&[f64]) -> f64) -> Grid {
    let mut axes = Axes {
        count: knots.len(),
        kinds: [kind::SECOND_DERIVATIVE; 8],
        modes: [mode::HOLD; 4],
        ..Axes::default()
    };
    for (points, axis) in axes.points.iter_mut().zip(knots) {
        *points = axis.len();
    }
    let places = (0..axes.samples_length()).map(|number| coordinates(knots, number));
    let samples: Vec<f64> = places.map(|place| of(&place)).collect();
    let mut tensor = vec![0.0; axes.tensor_length()];
    let mut scratch = vec![0.0; tensor.len() + SCRATCH];
    let knots = knots.concat();
    build(&axes, &knots, &samples, &mut tensor, &mut scratch).expect("the grid is accepted");
    assert!(scratch.iter().all(|number| number.to_bits() == 0));
    Grid {
        axes,
        knots,
        samples,
        tensor,
    }
}

/// The coordinates of a sample by its number; the last axis is the fastest.
fn coordinates(knots: &[&[f64]], mut number: usize) -> Vec<f64> {
    let mut place = vec![0.0; knots.len()];
    for (coordinate, axis) in place.iter_mut().zip(knots).rev() {
        *coordinate = axis[number % axis.len()];
        number /= axis.len();
    }
    place
}

/// Three levels at four even frequencies, and no plane.
pub fn even() -> Grid {
    grid(&[&[0.0, 0.5, 1.0, 1.5], &[40.0, 60.0, 80.0]], |place| {
        place[0] * place[0] - place[1] / 8.0
    })
}

/// The same on knots that are not even.
pub fn uneven() -> Grid {
    grid(&[&[0.0, 0.5, 1.0, 2.5], &[40.0, 60.0, 90.0]], |place| {
        place[0] * place[0] - place[1] / 8.0
    })
}

/// The bits of numbers.
pub fn bits(numbers: &[f64]) -> Vec<u64> {
    numbers.iter().map(|number| number.to_bits()).collect()
}
