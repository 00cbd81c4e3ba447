//! Axes, shapes and the flat position of a place.

use std::ops::Index;

/// The most axes an array may have here: four and that of the masks, with room.
const MOST_AXES: usize = 6;

/// An axis by its number.
#[derive(Debug, Clone, Copy, PartialEq, Eq)]
pub struct Axis(pub usize);

/// Lengths that do not fit together.
#[derive(Debug, Clone, Copy, PartialEq, Eq)]
pub struct ShapeError;

/// How many axes a type of array has.
pub trait Dimension {
    /// The count, or none where it is known at run time only.
    const AXES: Option<usize>;
}

/// One axis.
#[derive(Debug, Clone, Copy, PartialEq, Eq)]
pub struct Ix1;

/// A count of axes known at run time: the lengths of a shape, or a place in it.
#[derive(Debug, Clone, PartialEq, Eq)]
pub struct IxDyn {
    lengths: Vec<usize>,
}

/// A shape or a place, from one number for each axis.
#[allow(non_snake_case)]
pub fn IxDyn(lengths: &[usize]) -> IxDyn {
    IxDyn {
        lengths: lengths.to_vec(),
    }
}

impl IxDyn {
    pub(crate) fn lengths(&self) -> &[usize] {
        &self.lengths
    }
}

impl Index<usize> for IxDyn {
    type Output = usize;

    fn index(&self, axis: usize) -> &usize {
        &self.lengths[axis]
    }
}

impl Dimension for Ix1 {
    const AXES: Option<usize> = Some(1);
}

impl Dimension for IxDyn {
    const AXES: Option<usize> = None;
}

/// Where the numbers of an array stand in its storage.
#[derive(Debug, Clone, Copy)]
pub(crate) struct Layout {
    axes: usize,
    lengths: [usize; MOST_AXES],
    strides: [usize; MOST_AXES],
    start: usize,
}

impl Layout {
    /// The layout of a storage with its last axis fastest.
    pub(crate) fn row_major(shape: &[usize]) -> Self {
        let mut layout = Self {
            axes: shape.len(),
            lengths: [1; MOST_AXES],
            strides: [1; MOST_AXES],
            start: 0,
        };
        let mut stride = 1;
        for axis in (0..shape.len()).rev() {
            layout.lengths[axis] = shape[axis];
            layout.strides[axis] = stride;
            stride *= shape[axis];
        }
        layout
    }

    pub(crate) fn lengths(&self) -> &[usize] {
        &self.lengths[..self.axes]
    }

    pub(crate) fn count(&self) -> usize {
        self.lengths().iter().product()
    }

    /// The place that comes at a rank when the last axis is fastest.
    pub(crate) fn place(&self, rank: usize) -> IxDyn {
        let mut place = vec![0; self.axes];
        let mut rest = rank;
        for axis in (0..self.axes).rev() {
            place[axis] = rest % self.lengths[axis];
            rest /= self.lengths[axis];
        }
        IxDyn(&place)
    }

    /// The position in the storage of the number at a rank.
    pub(crate) fn position(&self, rank: usize) -> usize {
        let mut position = self.start;
        let mut rest = rank;
        for axis in (0..self.axes).rev() {
            position += rest % self.lengths[axis] * self.strides[axis];
            rest /= self.lengths[axis];
        }
        position
    }

    /// The position in the storage of the number at a place.
    pub(crate) fn position_of_place(&self, place: &IxDyn) -> usize {
        assert_eq!(place.lengths.len(), self.axes);
        let mut position = self.start;
        for axis in 0..self.axes {
            assert!(place[axis] < self.lengths[axis]);
            position += place[axis] * self.strides[axis];
        }
        position
    }

    /// The layout with one index fixed on an axis and that axis taken out.
    pub(crate) fn fixed(&self, axis: Axis, index: usize) -> Self {
        assert!(axis.0 < self.axes && index < self.lengths[axis.0]);
        let mut layout = *self;
        layout.start += index * self.strides[axis.0];
        layout.axes -= 1;
        for kept in axis.0..layout.axes {
            layout.lengths[kept] = self.lengths[kept + 1];
            layout.strides[kept] = self.strides[kept + 1];
        }
        layout
    }

    /// The start of every line along an axis, in the order of the other axes.
    pub(crate) fn lane_starts(&self, axis: Axis) -> Vec<usize> {
        let others = self.fixed(axis, 0);
        (0..others.count())
            .map(|rank| others.position(rank))
            .collect()
    }

    /// The layout of the line along an axis from a start.
    pub(crate) fn lane(&self, axis: Axis, start: usize) -> Self {
        let mut layout = Self::row_major(&[self.lengths[axis.0]]);
        layout.strides[0] = self.strides[axis.0];
        layout.start = start;
        layout
    }
}
