//! The calls of steps: a point on a knot or between two, the knot that it steps to, and the
//! stepped surface. What is found is found by the unchanged functions.

use crate::refusals::{all_finite, knots_rise, points_in_range, require, Refusal};
use crate::shape::Shape;
use ninterp_unchanged::{self as ninterp, AxisLocation, StepDirection};

/// Which of two neighbouring knots equals a point: 1 and its index, or 0 and 0, in a slot of two.
pub fn exact_index(
    points: usize,
    knots: &[f64],
    lower: usize,
    point: f64,
    found: &mut [usize],
) -> Refusal {
    let answer = check_lengths(points, knots, found.len() == 2)
        .and_then(|()| require(lower <= points - 2, 6))
        .and_then(|()| check_numbers(knots, point))
        .map(|()| ninterp::exact_index(knots.into(), lower, &point));
    if let [is_found, index] = found {
        let exact = answer.unwrap_or(None);
        *is_found = usize::from(exact.is_some());
        *index = exact.unwrap_or(0);
    }
    answer.err().unwrap_or(0)
}

/// Where a point lies: 0 and the index of the knot that it equals, or 1 and the lower index of its
/// cell, in a slot of two, and the fraction, +0.0 on a knot, in a slot of one.
pub fn locate_axis(
    points: usize,
    knots: &[f64],
    point: f64,
    location: &mut [usize],
    fraction: &mut [f64],
) -> Refusal {
    let slots_stand = location.len() == 2 && fraction.len() == 1;
    let answer = check_lengths(points, knots, slots_stand)
        .and_then(|()| check_numbers(knots, point))
        .map(|()| ninterp::locate_axis(knots.into(), &point))
        .map(|found| match found {
            AxisLocation::Exact(index) => (0, index, 0.0),
            AxisLocation::Between { lower, frac } => (1, lower, frac),
        })
        .and_then(|found| require(found.2.is_finite(), 10).map(|()| found));
    if slots_stand {
        (location[0], location[1], fraction[0]) = answer.unwrap_or_default();
    }
    answer.err().unwrap_or(0)
}

/// The index of the knot that a point steps to, in a slot of one.
pub fn locate_step_index(
    points: usize,
    knots: &[f64],
    direction: u8,
    point: f64,
    index: &mut [usize],
) -> Refusal {
    let answer = check_lengths(points, knots, index.len() == 1)
        .and_then(|()| directions(&[direction]))
        .and_then(|directions| check_numbers(knots, point).map(|()| directions[0]))
        .map(|direction| ninterp::locate_step_index(direction, knots.into(), &point));
    if let [index] = index {
        *index = answer.unwrap_or(0);
    }
    answer.err().unwrap_or(0)
}

/// The sample at the place that the coordinates step to, in a slot of one, and the four indices
/// of that place.
#[allow(clippy::too_many_arguments)]
pub fn stepped(
    axes: usize,
    points: &[usize],
    directions: &[u8],
    knots: &[f64],
    samples: &[f64],
    coordinates: &[f64],
    value: &mut [f64],
    indices: &mut [usize],
) -> Refusal {
    let slots_stand = value.len() == 1 && indices.len() == 4;
    let answer = Shape::checked(axes, points).and_then(|shape| {
        require(slots_stand, 4)?;
        sample_at(&shape, directions, knots, samples, coordinates)
    });
    let refusal = answer.as_ref().err().copied().unwrap_or(0);
    if slots_stand {
        let (sample, place) = answer.unwrap_or_default();
        value[0] = sample;
        indices.fill(0);
        indices[..place.len()].copy_from_slice(&place);
    }
    refusal
}

/// The sample and its place on the axes in use, or the refusal.
fn sample_at(
    shape: &Shape,
    numbers: &[u8],
    knots: &[f64],
    samples: &[f64],
    coordinates: &[f64],
) -> Result<(f64, Vec<usize>), Refusal> {
    require(numbers.len() == 4, 4)?;
    require(knots.len() == shape.knots_length(), 4)?;
    require(samples.len() == shape.samples_length(), 4)?;
    require(coordinates.len() == shape.axes(), 4)?;
    let directions = directions(&numbers[..shape.axes()])?;
    let finite = [knots, samples, coordinates].into_iter().all(all_finite);
    require(finite, 7)?;
    let knots = shape.knots_by_axis(knots);
    require(knots.iter().all(|knots| knots_rise(knots)), 8)?;
    let axes = directions.into_iter().zip(knots).zip(coordinates);
    let place: Vec<usize> = axes
        .map(|((direction, knots), point)| {
            ninterp::locate_step_index(direction, knots.into(), point)
        })
        .collect();
    Ok((samples[shape.number(&place)], place))
}

/// 2, and 4 for the knots and the slots.
fn check_lengths(points: usize, knots: &[f64], slots_stand: bool) -> Result<(), Refusal> {
    require(points_in_range(points), 2)?;
    require(knots.len() == points && slots_stand, 4)
}

/// 7 and 8 for knots and a point.
fn check_numbers(knots: &[f64], point: f64) -> Result<(), Refusal> {
    require(all_finite(knots) && point.is_finite(), 7)?;
    require(knots_rise(knots), 8)
}

/// The directions of numbers, or 22.
fn directions(numbers: &[u8]) -> Result<Vec<StepDirection>, Refusal> {
    let direction = |number: &u8| match number {
        0 => Ok(StepDirection::Lower),
        1 => Ok(StepDirection::Upper),
        _ => Err(22),
    };
    numbers.iter().map(direction).collect()
}

/// 22 where a number is that of no direction.
pub fn directions_stand(numbers: &[u8]) -> Result<(), Refusal> {
    directions(numbers).map(|_| ())
}
