//! The axes in use, their points, and the lengths and places that follow.

use crate::refusals::{points_in_range, require, Refusal};
use ninterp_unchanged::ArrayView1;

/// The most numbers that a tensor holds.
pub const LONGEST_TENSOR: usize = 4096;

/// The points of the axes in use.
#[derive(Clone, Copy)]
pub struct Shape<'a> {
    points: &'a [usize],
}

impl<'a> Shape<'a> {
    /// The shape of the first so many of four axes: 1 for their number alone, 4 for points that
    /// are not four, 2, or 3.
    pub fn checked(axes: usize, points: &'a [usize]) -> Result<Self, Refusal> {
        require((1..=4).contains(&axes), 1)?;
        require(points.len() == 4, 4)?;
        let shape = Self {
            points: &points[..axes],
        };
        require(shape.points.iter().all(|count| points_in_range(*count)), 2)?;
        require(shape.tensor_length() <= LONGEST_TENSOR, 3)?;
        Ok(shape)
    }

    /// The points, one number for each axis in use.
    pub fn points(&self) -> &'a [usize] {
        self.points
    }

    /// How many axes are in use.
    pub fn axes(&self) -> usize {
        self.points.len()
    }

    /// How many masks there are.
    pub fn masks(&self) -> usize {
        1 << self.axes()
    }

    /// How many knots there are on all axes together.
    pub fn knots_length(&self) -> usize {
        self.points.iter().sum()
    }

    /// How many samples there are.
    pub fn samples_length(&self) -> usize {
        self.points.iter().product()
    }

    /// How many numbers the tensor holds.
    pub fn tensor_length(&self) -> usize {
        self.samples_length() * self.masks()
    }

    /// The knots of each axis, from the flat list.
    pub fn knots_by_axis<'k>(&self, knots: &'k [f64]) -> Vec<&'k [f64]> {
        let mut rest = knots;
        let mut by_axis = Vec::new();
        for count in self.points {
            let (axis, behind) = rest.split_at(*count);
            by_axis.push(axis);
            rest = behind;
        }
        by_axis
    }

    /// The place on the grid of the sample with a number.
    pub fn place(&self, number: usize) -> Vec<usize> {
        let mut place = vec![0; self.axes()];
        let mut rest = number;
        for axis in (0..self.axes()).rev() {
            place[axis] = rest % self.points[axis];
            rest /= self.points[axis];
        }
        place
    }

    /// The number of the sample at a place, last axis fastest.
    pub fn number(&self, place: &[usize]) -> usize {
        let axes = place.iter().zip(self.points);
        axes.fold(0, |number, (index, points)| number * points + index)
    }

    /// Where the entry of a mask stands in the tensor for a place.
    pub fn position(&self, place: &[usize], mask: usize) -> usize {
        self.number(place) * self.masks() + mask
    }
}

/// The knots of each axis in the form that ninterp takes.
pub fn views<'k>(knots_by_axis: &[&'k [f64]]) -> Vec<ArrayView1<'k, f64>> {
    knots_by_axis.iter().map(|knots| (*knots).into()).collect()
}
