//! The calls that ask a tensor, or step on a surface, at many points, one after the other.

use crate::modes::modes_stand;
use crate::query::{direct_query, quick_query};
use crate::refusals::{require, Refusal};
use crate::shape::Shape;
use crate::step::{directions_stand, stepped};

/// A query of one point, or the stepped surface at one.
type Single =
    fn(usize, &[usize], &[u8], &[f64], &[f64], &[f64], &mut [f64], &mut [usize]) -> Refusal;

/// The quick query at as many points as refusals are lent.
#[allow(clippy::too_many_arguments)]
pub fn quick_queries(
    axes: usize,
    points: &[usize],
    modes: &[u8],
    knots: &[f64],
    tensor: &[f64],
    coordinates: &[f64],
    values: &mut [f64],
    labels: &mut [usize],
    refusals: &mut [usize],
) -> Refusal {
    let given = (axes, points, modes, knots, tensor, coordinates);
    queries(quick_query, given, values, labels, refusals)
}

/// The direct query at as many points as refusals are lent.
#[allow(clippy::too_many_arguments)]
pub fn direct_queries(
    axes: usize,
    points: &[usize],
    modes: &[u8],
    knots: &[f64],
    tensor: &[f64],
    coordinates: &[f64],
    values: &mut [f64],
    labels: &mut [usize],
    refusals: &mut [usize],
) -> Refusal {
    let given = (axes, points, modes, knots, tensor, coordinates);
    queries(direct_query, given, values, labels, refusals)
}

/// The stepped surface at as many points as refusals are lent.
#[allow(clippy::too_many_arguments)]
pub fn stepped_many(
    axes: usize,
    points: &[usize],
    directions: &[u8],
    knots: &[f64],
    samples: &[f64],
    coordinates: &[f64],
    values: &mut [f64],
    indices: &mut [usize],
    refusals: &mut [usize],
) -> Refusal {
    let lengths = [
        coordinates.len(),
        values.len(),
        indices.len(),
        refusals.len(),
    ];
    let stands = checked_shape(axes, points, directions, knots, lengths).and_then(|shape| {
        require(samples.len() == shape.samples_length(), 4)?;
        directions_stand(&directions[..axes])
    });
    if let Err(refusal) = stands {
        return refusal;
    }
    let given = (axes, points, directions, knots, samples, coordinates);
    each(stepped, given, values, indices, refusals);
    0
}

/// A query at each point, where 1, 4 for points that are not four, 2, 3, 4 for every other slice, and 22 do
/// not apply.
fn queries(
    single: Single,
    given: Given,
    values: &mut [f64],
    labels: &mut [usize],
    refusals: &mut [usize],
) -> Refusal {
    let (axes, points, modes, knots, tensor, coordinates) = given;
    let lengths = [
        coordinates.len(),
        values.len(),
        labels.len(),
        refusals.len(),
    ];
    let stands = checked_shape(axes, points, modes, knots, lengths).and_then(|shape| {
        require(tensor.len() == shape.tensor_length(), 4)?;
        modes_stand(&modes[..axes])
    });
    if let Err(refusal) = stands {
        return refusal;
    }
    each(single, given, values, labels, refusals);
    0
}

/// The grid of the axes, with a number, a mode's or a direction's, for each of four: 1, 4 for points that
/// are not four, 2, 3, and 4 for the numbers, the knots and what is lent of the points.
fn checked_shape<'a>(
    axes: usize,
    points: &'a [usize],
    numbers: &[u8],
    knots: &[f64],
    [coordinates, values, labels, count]: [usize; 4],
) -> Result<Shape<'a>, Refusal> {
    let shape = Shape::checked(axes, points)?;
    require(numbers.len() == 4, 4)?;
    require(knots.len() == shape.knots_length(), 4)?;
    require(coordinates == axes * count, 4)?;
    require(values == count && labels == 4 * count, 4)?;
    Ok(shape)
}

/// What every point is asked with: the axes, their points, their modes or directions, their knots, the
/// tensor or the samples, and the coordinates of all points.
type Given<'a> = (
    usize,
    &'a [usize],
    &'a [u8],
    &'a [f64],
    &'a [f64],
    &'a [f64],
);

/// The answer of a single call at each point.
fn each(
    single: Single,
    (axes, points, numbers, knots, surface, coordinates): Given,
    values: &mut [f64],
    labels: &mut [usize],
    refusals: &mut [usize],
) {
    let of_points = coordinates.chunks_exact(axes);
    let slots = values.chunks_exact_mut(1).zip(labels.chunks_exact_mut(4));
    for ((point, (value, labels)), refusal) in of_points.zip(slots).zip(refusals) {
        *refusal = single(axes, points, numbers, knots, surface, point, value, labels);
    }
}
