//! Tensors to be held against the build of their samples: as they were built, with samples
//! overwritten, with numbers damaged, and with a change behind the damage.

use crate::case::{Calls, Case};
use crate::grid::Grid;
use crate::lending;
use crate::numbers::{any_finite, list, ordinary};
use crate::random::Random;
use crate::reading_calls::Reading;

/// What is done to a tensor that was built.
type Damage = fn(&mut Random, &Grid, &mut [f64]);

/// A verification; of three tensors about one is as it was built.
pub fn verify(random: &mut Random) -> Case {
    let grid = grid(random);
    let mut tensor = built(random, &grid);
    if random.percent(64) {
        let damage: Damage = match random.below(16) {
            0..=2 => overwrite_a_sample,
            3 => overwrite_every_sample,
            4..=9 => damage_a_number,
            10..=12 => damage_several,
            _ => damage_and_change,
        };
        damage(random, &grid, &mut tensor);
    }
    lending::verify(random, &grid, &tensor)
}

/// A grid of any shape, or one of four axes, which alone has the masks above 7.
fn grid(random: &mut Random) -> Grid {
    if random.percent(20) {
        let shape = [(); 4].map(|()| random.between(2, 3));
        return Grid::of_shape(random, &shape);
    }
    Grid::generate(random)
}

/// The tensor of samples; where their build is refused, they stand among any numbers.
fn built(random: &mut Random, grid: &Grid) -> Vec<f64> {
    let mut tensor = list(random, grid.tensor());
    let samples = list(random, grid.samples());
    put_samples(grid, &mut tensor, &samples);
    grid.built_over(tensor, &samples)
}

/// Puts samples into a tensor and leaves its derivatives.
fn put_samples(grid: &Grid, tensor: &mut [f64], samples: &[f64]) {
    let slots = tensor.iter_mut().step_by(1 << grid.axes);
    for (slot, sample) in slots.zip(samples) {
        *slot = *sample;
    }
}

/// Another sample, of which the derivatives know nothing.
fn overwrite_a_sample(random: &mut Random, grid: &Grid, tensor: &mut [f64]) {
    let slot = &mut tensor[random.below(grid.samples()) << grid.axes];
    *slot = if random.percent(60) {
        list(random, 1)[0]
    } else {
        damaged(random, *slot)
    };
}

/// The samples of another surface.
fn overwrite_every_sample(random: &mut Random, grid: &Grid, tensor: &mut [f64]) {
    let samples = list(random, grid.samples());
    put_samples(grid, tensor, &samples);
}

/// Another number at any mask and any place.
fn damage_a_number(random: &mut Random, grid: &Grid, tensor: &mut [f64]) {
    let at = position(random, grid, tensor);
    tensor[at] = damaged(random, tensor[at]);
}

/// The same some times over, at times at one place.
fn damage_several(random: &mut Random, grid: &Grid, tensor: &mut [f64]) {
    for _ in 0..random.pick(&[2, 2, 3, 4, 9]) {
        damage_a_number(random, grid, tensor);
    }
}

/// A sample overwritten or numbers damaged, and a change somewhere: with the sample that stands
/// there, which renews what follows from it alone, or with another one. On one axis all is renewed.
fn damage_and_change(random: &mut Random, grid: &Grid, tensor: &mut [f64]) {
    if random.percent(40) {
        overwrite_a_sample(random, grid, tensor);
    } else {
        damage_several(random, grid, tensor);
    }
    let place = grid.place(random);
    let sample = if random.percent(50) {
        tensor[grid.number(&place) << grid.axes]
    } else {
        list(random, 1)[0]
    };
    let mut change = lending::change(random, grid, tensor, place, sample);
    Reading.run(&mut change);
    tensor.copy_from_slice(change.argument("tensor").floats());
}

/// Where a number is damaged: at a derivative of minus zero, which few tensors have, behind the
/// first sample, at the end, at a derivative of plus zero where there is one, or anywhere.
fn position(random: &mut Random, grid: &Grid, tensor: &[f64]) -> usize {
    let minus_zeros = derivatives_of(grid, tensor, -0.0);
    if !minus_zeros.is_empty() && random.percent(60) {
        return random.pick(&minus_zeros);
    }
    let zeros = derivatives_of(grid, tensor, 0.0);
    match random.below(20) {
        0 => 1,
        1..=2 => tensor.len() - 1,
        3..=7 if !zeros.is_empty() => random.pick(&zeros),
        _ => random.below(tensor.len()),
    }
}

/// Where the derivatives stand that have the bits of a number.
fn derivatives_of(grid: &Grid, tensor: &[f64], number: f64) -> Vec<usize> {
    let derivatives = (0..tensor.len()).filter(|at| at % (1 << grid.axes) != 0);
    let equal = derivatives.filter(|at| tensor[*at].to_bits() == number.to_bits());
    equal.collect()
}

/// A finite number of other bits, or, seldom, of the same: its neighbour on either side, the same
/// with the other sign, which a zero gets more often, or another one.
fn damaged(random: &mut Random, number: f64) -> f64 {
    if number == 0.0 && random.percent(60) {
        return -number;
    }
    let other = match random.below(8) {
        0..=1 => number.next_up(),
        2..=3 => number.next_down(),
        4 => -number,
        5..=6 => ordinary(random),
        _ => any_finite(random),
    };
    if other.is_finite() {
        other
    } else {
        -number
    }
}
