//! The calls that make a tensor and change it.

use crate::ends::{conditions, enough_points, homogeneous, kinds_stand, values_finite, Condition};
use crate::refusals::{all_finite, clear_after_work, knots_rise, require, Refusal, CURVE_SCRATCH};
use crate::shape::{views, Shape};
use ninterp_unchanged::{
    compute_corner_cache, compute_m, knot_derivatives_from_m, ArrayD, Broadcastable, IxDyn,
};

/// The tensor of samples on a grid.
#[allow(clippy::too_many_arguments)]
pub fn build(
    axes: usize,
    points: &[usize],
    kinds: &[u8],
    values: &[f64],
    knots: &[f64],
    samples: &[f64],
    tensor: &mut [f64],
    scratch: &mut [f64],
) -> Refusal {
    let built = Shape::checked(axes, points).and_then(|shape| {
        require(samples.len() == shape.samples_length(), 4)?;
        check_lengths(&shape, kinds, values, knots, tensor)?;
        kinds_stand(&kinds[..2 * axes])?;
        check_scratch(&shape, scratch)?;
        require(all_finite(samples), 7)?;
        let conditions = checked_conditions(&shape, kinds, values, knots)?;
        let built = tensor_of(&shape, &conditions, knots, samples);
        require(all_finite(&built), 10).map(|()| built)
    });
    let refusal = built.as_ref().err().copied().unwrap_or(0);
    if let Ok(built) = built {
        tensor.copy_from_slice(&built);
    }
    clear_after_work(scratch, refusal);
    refusal
}

/// One sample changed in a tensor, with the lanes that can differ solved again.
#[allow(clippy::too_many_arguments)]
pub fn change(
    axes: usize,
    points: &[usize],
    kinds: &[u8],
    values: &[f64],
    knots: &[f64],
    tensor: &mut [f64],
    scratch: &mut [f64],
    place: &[usize],
    sample: f64,
    lanes: &mut [usize],
) -> Refusal {
    let changed = Shape::checked(axes, points).and_then(|shape| {
        require(place.len() == 4 && lanes.len() == 1, 4)?;
        check_lengths(&shape, kinds, values, knots, tensor)?;
        kinds_stand(&kinds[..2 * axes])?;
        check_scratch(&shape, scratch)?;
        require(on_the_grid(&shape, &place[..axes]), 6)?;
        require(sample.is_finite() && all_finite(tensor), 7)?;
        let conditions = checked_conditions(&shape, kinds, values, knots)?;
        changed_tensor(&shape, &conditions, knots, tensor, &place[..axes], sample)
    });
    let refusal = changed.as_ref().err().copied().unwrap_or(0);
    if let [lanes] = lanes {
        *lanes = changed.as_ref().map_or(0, |(_, count)| *count);
    }
    if let Ok((changed, _)) = changed {
        tensor.copy_from_slice(&changed);
    }
    clear_after_work(scratch, refusal);
    refusal
}

/// 4 for the ends of four axes, the knots and the tensor.
pub(crate) fn check_lengths(
    shape: &Shape,
    kinds: &[u8],
    values: &[f64],
    knots: &[f64],
    tensor: &[f64],
) -> Result<(), Refusal> {
    require(kinds.len() == 8 && values.len() == 8, 4)?;
    require(knots.len() == shape.knots_length(), 4)?;
    require(tensor.len() == shape.tensor_length(), 4)
}

/// 5.
pub(crate) fn check_scratch(shape: &Shape, scratch: &[f64]) -> Result<(), Refusal> {
    require(scratch.len() >= shape.tensor_length() + CURVE_SCRATCH, 5)
}

/// The conditions of the axes in use, after 7 for end values and knots, 8 and 9.
pub(crate) fn checked_conditions(
    shape: &Shape,
    kinds: &[u8],
    values: &[f64],
    knots: &[f64],
) -> Result<Vec<Condition>, Refusal> {
    let ends = 2 * shape.axes();
    let (kinds, values) = (&kinds[..ends], &values[..ends]);
    require(values_finite(kinds, values) && all_finite(knots), 7)?;
    let rise = shape.knots_by_axis(knots).into_iter().all(knots_rise);
    require(rise, 8)?;
    let conditions = conditions(kinds, values);
    require(enough_points(&conditions, shape.points()), 9)?;
    Ok(conditions)
}

/// The tensor after a change and the count of lanes solved, or 10.
fn changed_tensor(
    shape: &Shape,
    conditions: &[Condition],
    knots: &[f64],
    tensor: &[f64],
    place: &[usize],
    sample: f64,
) -> Result<(Vec<f64>, usize), Refusal> {
    let mut changed = tensor.to_vec();
    changed[shape.position(place, 0)] = sample;
    let lanes = lanes_of_change(shape, place);
    assert_eq!(lanes.len(), closed_sum_of_lanes(shape));
    solve_lanes(shape, conditions, knots, &mut changed, &lanes);
    require(all_finite(&changed), 10)?;
    Ok((changed, lanes.len()))
}

fn on_the_grid(shape: &Shape, place: &[usize]) -> bool {
    let mut axes = place.iter().zip(shape.points());
    axes.all(|(index, points)| index < points)
}

/// The tensor as ninterp builds it, finite or not.
pub(crate) fn tensor_of(
    shape: &Shape,
    conditions: &[Condition],
    knots: &[f64],
    samples: &[f64],
) -> Vec<f64> {
    let grid = ArrayD::from_shape_vec(IxDyn(shape.points()), samples.to_vec())
        .expect("there is a sample for every place");
    let knots = views(&shape.knots_by_axis(knots));
    let conditions = Broadcastable::Each(conditions.to_vec());
    let tensor = compute_corner_cache(&knots, grid.view(), &conditions);
    tensor.iter().copied().collect()
}

/// A line of the tensor along an axis, in the entries of one mask.
#[derive(Debug, Clone, PartialEq, Eq)]
pub struct Lane {
    /// The axis it runs along.
    pub axis: usize,
    /// The mask whose entries are splined.
    pub mask: usize,
    /// Its place at index 0 of that axis.
    pub start: Vec<usize>,
}

/// Every lane of the build, in its order.
pub fn lanes_of_build(shape: &Shape) -> Vec<Lane> {
    let mut lanes = Vec::new();
    for axis in 0..shape.axes() {
        for mask in 0..1 << axis {
            let places = (0..shape.samples_length()).map(|number| shape.place(number));
            let starts = places.filter(|place| place[axis] == 0);
            lanes.extend(starts.map(|start| Lane { axis, mask, start }));
        }
    }
    lanes
}

/// The lanes that a change at a place solves again, in the order of the build.
pub fn lanes_of_change(shape: &Shape, place: &[usize]) -> Vec<Lane> {
    let mut lanes = lanes_of_build(shape);
    lanes.retain(|lane| meets(lane, place));
    lanes
}

/// How many lanes a change solves, without listing them: for every axis the product,
/// over the axes below it, of one more than their points.
pub fn closed_sum_of_lanes(shape: &Shape) -> usize {
    let points = shape.points();
    let below = |axis: usize| points[..axis].iter().map(|count| 1 + count);
    let products = (0..points.len()).map(|axis| below(axis).product::<usize>());
    products.sum()
}

/// Whether a lane has the place's index on every fixed axis outside its mask.
fn meets(lane: &Lane, place: &[usize]) -> bool {
    let fixed = (0..place.len()).filter(|axis| *axis != lane.axis);
    let mut outside = fixed.filter(|axis| lane.mask & (1 << axis) == 0);
    outside.all(|axis| lane.start[axis] == place[axis])
}

/// Solves lanes one after the other, each from what the tensor holds by then: mask 0
/// under the axis's own ends, every other mask under the same kinds with zeros.
pub fn solve_lanes(
    shape: &Shape,
    conditions: &[Condition],
    knots: &[f64],
    tensor: &mut [f64],
    lanes: &[Lane],
) {
    for lane in lanes {
        let own = &conditions[lane.axis];
        if lane.mask == 0 {
            solve_lane(shape, own, knots, tensor, lane);
        } else {
            solve_lane(shape, &homogeneous(own), knots, tensor, lane);
        }
    }
}

/// Stores the knot slopes of one lane at its mask plus its axis.
pub fn solve_lane(
    shape: &Shape,
    condition: &Condition,
    knots: &[f64],
    tensor: &mut [f64],
    lane: &Lane,
) {
    let knots = shape.knots_by_axis(knots)[lane.axis];
    let places = places_of_lane(shape, lane);
    let sample = |place: &Vec<usize>| tensor[shape.position(place, lane.mask)];
    let samples: Vec<f64> = places.iter().map(sample).collect();
    let moments = compute_m(knots, &samples, condition);
    let slopes = knot_derivatives_from_m(knots, &samples, &moments);
    for (place, slope) in places.iter().zip(slopes) {
        tensor[shape.position(place, lane.mask | 1 << lane.axis)] = slope;
    }
}

/// The places along a lane, in rising order.
fn places_of_lane(shape: &Shape, lane: &Lane) -> Vec<Vec<usize>> {
    let along = |index| {
        let mut place = lane.start.clone();
        place[lane.axis] = index;
        place
    };
    (0..shape.points()[lane.axis]).map(along).collect()
}
