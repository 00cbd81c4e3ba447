//! The calls that ask a tensor for its value at a point.

use crate::even::{direct_cell, first_uneven};
use crate::modes::{evaluated, held, modes_stand, HOLD};
use crate::refusals::{all_finite, knots_rise, require, Refusal};
use crate::shape::{views, Shape};
use ninterp_unchanged::{evaluate_spline_corner_cached, locate_lower_index, ArrayD, IxDyn};

/// The tensor's value at a point, and of every axis the cell that the unchanged search
/// finds, which is the label.
#[allow(clippy::too_many_arguments)]
pub fn query(
    axes: usize,
    points: &[usize],
    modes: &[u8],
    knots: &[f64],
    tensor: &[f64],
    coordinates: &[f64],
    value: &mut [f64],
    labels: &mut [usize],
) -> Refusal {
    let slots_stand = slots_stand(value, labels);
    let shape = checked_shape(axes, points, slots_stand);
    let asked = shape.and_then(|shape| Asked::checked(shape, modes, knots, tensor, coordinates));
    let answer = asked.and_then(|asked| asked.answer());
    hand_over(answer, slots_stand, value, labels)
}

/// The same, with no look at knots but those that the search visits and those of the cell.
#[allow(clippy::too_many_arguments)]
pub fn quick_query(
    axes: usize,
    points: &[usize],
    modes: &[u8],
    knots: &[f64],
    tensor: &[f64],
    coordinates: &[f64],
    value: &mut [f64],
    labels: &mut [usize],
) -> Refusal {
    let slots_stand = slots_stand(value, labels);
    let shape = checked_shape(axes, points, slots_stand);
    let asked = shape.and_then(|shape| Asked::checked(shape, modes, knots, tensor, coordinates));
    let answer = asked.and_then(|asked| asked.quick_answer());
    hand_over(answer, slots_stand, value, labels)
}

/// The same on even axes, in the cells that direct arithmetic finds. A slot of two tells which axis is
/// not even, the lowest where there are several, and where its spacing is first off.
#[allow(clippy::too_many_arguments)]
pub fn even_query(
    axes: usize,
    points: &[usize],
    modes: &[u8],
    knots: &[f64],
    tensor: &[f64],
    coordinates: &[f64],
    value: &mut [f64],
    labels: &mut [usize],
    uneven: &mut [usize],
) -> Refusal {
    let slots_stand = slots_stand(value, labels) && uneven.len() == 2;
    let shape = checked_shape(axes, points, slots_stand);
    let asked = shape.and_then(|shape| Asked::checked(shape, modes, knots, tensor, coordinates));
    let answer = asked.as_ref().map_err(|refusal| *refusal);
    let answer = answer.and_then(|asked| asked.even_answer());
    if slots_stand {
        let found = match (&asked, &answer) {
            (Ok(asked), Err(21)) => first_uneven(&asked.knots),
            _ => None,
        };
        uneven.copy_from_slice(&found.unwrap_or_default());
    }
    hand_over(answer, slots_stand, value, labels)
}

/// The same in the cells that direct arithmetic finds, with no look at knots but the first two of an
/// axis, those of the cell, and the last where the mode asks on which side a coordinate lies.
#[allow(clippy::too_many_arguments)]
pub fn direct_query(
    axes: usize,
    points: &[usize],
    modes: &[u8],
    knots: &[f64],
    tensor: &[f64],
    coordinates: &[f64],
    value: &mut [f64],
    labels: &mut [usize],
) -> Refusal {
    let slots_stand = slots_stand(value, labels);
    let shape = checked_shape(axes, points, slots_stand);
    let asked = shape.and_then(|shape| Asked::checked(shape, modes, knots, tensor, coordinates));
    let answer = asked.and_then(|asked| asked.direct_answer());
    hand_over(answer, slots_stand, value, labels)
}

/// Whether the slots of an answer have their lengths.
fn slots_stand(value: &[f64], labels: &[usize]) -> bool {
    value.len() == 1 && labels.len() == 4
}

/// 1, 4 for points that are not four, 2, 3, and 4 for the slots.
fn checked_shape(axes: usize, points: &[usize], slots_stand: bool) -> Result<Shape<'_>, Refusal> {
    let shape = Shape::checked(axes, points)?;
    require(slots_stand, 4).map(|()| shape)
}

/// The value, and the cells of the axes in use.
type Answer = (f64, Vec<usize>);

/// Stores an answer in its slots, +0.0 and zeros for a refusal, where these have their lengths.
fn hand_over(
    answer: Result<Answer, Refusal>,
    slots_stand: bool,
    value: &mut [f64],
    labels: &mut [usize],
) -> Refusal {
    let refusal = answer.as_ref().err().copied().unwrap_or(0);
    if slots_stand {
        let (answer, cells) = answer.unwrap_or_default();
        value[0] = answer;
        labels.fill(0);
        labels[..cells.len()].copy_from_slice(&cells);
    }
    refusal
}

/// What a query is given, once everything has its length.
struct Asked<'a> {
    shape: Shape<'a>,
    modes: &'a [u8],
    knots: Vec<&'a [f64]>,
    tensor: &'a [f64],
    coordinates: &'a [f64],
}

impl<'a> Asked<'a> {
    /// 4 for every other slice, and 22.
    fn checked(
        shape: Shape<'a>,
        modes: &'a [u8],
        knots: &'a [f64],
        tensor: &'a [f64],
        coordinates: &'a [f64],
    ) -> Result<Self, Refusal> {
        require(modes.len() == 4, 4)?;
        require(knots.len() == shape.knots_length(), 4)?;
        require(tensor.len() == shape.tensor_length(), 4)?;
        require(coordinates.len() == shape.axes(), 4)?;
        let modes = &modes[..shape.axes()];
        modes_stand(modes)?;
        Ok(Self {
            shape,
            modes,
            knots: shape.knots_by_axis(knots),
            tensor,
            coordinates,
        })
    }

    /// 7 and 8 where all knots are looked at.
    fn check_numbers(&self) -> Result<(), Refusal> {
        let finite = self.knots.iter().all(|knots| all_finite(knots));
        require(finite && all_finite(self.coordinates), 7)?;
        require(self.knots.iter().all(|knots| knots_rise(knots)), 8)
    }

    /// The answer on knots that all are looked at: the Rust's own at the point that is evaluated.
    fn answer(&self) -> Result<Answer, Refusal> {
        self.check_numbers()?;
        let point = evaluated(self.modes, &self.knots, self.coordinates)?;
        let value = value_at(self.shape.points(), &self.knots, self.tensor, &point);
        require(value.is_finite(), 10)?;
        Ok((value, self.cells()))
    }

    /// The answer on any knots. On those that do not rise the Rust would find another cell if it
    /// were handed the whole grid.
    fn quick_answer(&self) -> Result<Answer, Refusal> {
        require(all_finite(self.coordinates), 7)?;
        let cells = self.cells();
        self.check_cells(&cells)?;
        let point = evaluated(self.modes, &self.knots, self.coordinates)?;
        self.answer_in(cells, &point)
    }

    /// 8 where the knots of the cells alone are looked at.
    fn check_cells(&self, cells: &[usize]) -> Result<(), Refusal> {
        let good = |ends: &&[f64]| all_finite(ends) && knots_rise(ends);
        require(self.ends(cells).iter().all(good), 8)
    }

    /// The answer on any knots in the cells of direct arithmetic, which a coordinate that is held has
    /// at the end knot. A coordinate that a mode refuses is found in its cell first, as 8 comes before 18.
    fn direct_answer(&self) -> Result<Answer, Refusal> {
        require(all_finite(self.coordinates), 7)?;
        let axes = self.modes.iter().zip(&self.knots).zip(self.coordinates);
        let cells: Vec<usize> = axes
            .map(|((mode, knots), point)| {
                let placed = if *mode == HOLD {
                    held(knots, *point)
                } else {
                    *point
                };
                direct_cell(knots, placed)
            })
            .collect();
        self.check_cells(&cells)?;
        let point = evaluated(self.modes, &self.knots, self.coordinates)?;
        self.answer_in(cells, &point)
    }

    /// The answer on even axes, with the cells of the point that is evaluated.
    fn even_answer(&self) -> Result<Answer, Refusal> {
        self.check_numbers()?;
        require(first_uneven(&self.knots).is_none(), 21)?;
        let point = evaluated(self.modes, &self.knots, self.coordinates)?;
        let axes = self.knots.iter().zip(&point);
        let cells = axes.map(|(knots, point)| direct_cell(knots, *point));
        self.answer_in(cells.collect(), &point)
    }

    /// The answer at a point of the cubic in given cells, which is all that the blend is handed.
    fn answer_in(&self, cells: Vec<usize>, point: &[f64]) -> Result<Answer, Refusal> {
        let (ends, corners) = (self.ends(&cells), self.corners(&cells));
        let value = value_at(&vec![2; cells.len()], &ends, &corners, point);
        require(value.is_finite(), 10)?;
        Ok((value, cells))
    }

    /// The lower and the upper knot of a cell on each axis.
    fn ends(&self, cells: &[usize]) -> Vec<&[f64]> {
        let axes = self.knots.iter().zip(cells);
        axes.map(|(knots, cell)| &knots[*cell..cell + 2]).collect()
    }

    /// The cell that the unchanged search finds on each axis for the point as it is given, held
    /// to the last one.
    fn cells(&self) -> Vec<usize> {
        let axes = self.knots.iter().zip(self.coordinates);
        axes.map(|(knots, point)| {
            let found = locate_lower_index((*knots).into(), point);
            found.min(knots.len() - 2)
        })
        .collect()
    }

    /// The tensor's numbers at the corners of a cell, as a tensor of two points on each axis.
    fn corners(&self, cells: &[usize]) -> Vec<f64> {
        let masks = self.shape.masks();
        let mut corners = Vec::new();
        for corner in 0..1 << cells.len() {
            let upper = |axis: usize| corner >> (cells.len() - 1 - axis) & 1;
            let axes = cells.iter().enumerate();
            let place: Vec<usize> = axes.map(|(axis, cell)| cell + upper(axis)).collect();
            let first = self.shape.position(&place, 0);
            corners.extend_from_slice(&self.tensor[first..first + masks]);
        }
        corners
    }
}

/// The value as ninterp blends it, finite or not.
fn value_at(points: &[usize], knots: &[&[f64]], tensor: &[f64], coordinates: &[f64]) -> f64 {
    let mut lengths = points.to_vec();
    lengths.push(1 << points.len());
    let tensor = ArrayD::from_shape_vec(IxDyn(&lengths), tensor.to_vec())
        .expect("the tensor has its exact length");
    evaluate_spline_corner_cached(&views(knots), tensor.view(), coordinates)
}
