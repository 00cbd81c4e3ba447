//! Axes and shapes.

use std::ops::Index;

/// The most axes an array may have here: four and that of the masks, with room.
const MOST_AXES: usize = 6;

/// An axis by its number.
#[derive(Debug, Clone, Copy, PartialEq, Eq)]
pub struct Axis(pub usize);

/// Lengths that do not fit together.
#[derive(Debug, Clone, Copy, PartialEq, Eq)]
pub struct ShapeError;

/// One number for each axis: lengths, strides or a place.
pub trait Dimension: Copy {
    /// The numbers.
    fn numbers(&self) -> &[usize];

    /// The same from its numbers, or an error if there are too many or too few.
    fn of(numbers: &[usize]) -> Result<Self, ShapeError>;
}

/// One axis.
#[derive(Debug, Clone, Copy, PartialEq, Eq)]
pub struct Ix1(pub(crate) usize);

/// A count of axes known at run time.
#[derive(Debug, Clone, Copy, PartialEq, Eq)]
pub struct IxDyn {
    axes: usize,
    numbers: [usize; MOST_AXES],
}

/// A shape or a place, from one number for each axis.
#[allow(non_snake_case)]
#[inline]
pub fn IxDyn(numbers: &[usize]) -> IxDyn {
    let mut shape = IxDyn {
        axes: numbers.len(),
        numbers: [0; MOST_AXES],
    };
    // A plain loop: for so few numbers it is quicker than a call to memcpy.
    for (axis, number) in numbers.iter().enumerate() {
        shape.numbers[axis] = *number;
    }
    shape
}

impl IxDyn {
    #[inline]
    pub(crate) fn product(&self) -> usize {
        self.numbers().iter().product()
    }

    /// The first place of an array with as many axes.
    #[inline]
    pub(crate) fn all_zero(&self) -> Self {
        Self {
            axes: self.axes,
            numbers: [0; MOST_AXES],
        }
    }

    /// The place behind this one, last axis fastest.
    #[inline]
    pub(crate) fn step_within(&mut self, lengths: &Self) {
        for axis in (0..self.axes).rev() {
            self.numbers[axis] += 1;
            if self.numbers[axis] < lengths.numbers[axis] {
                return;
            }
            self.numbers[axis] = 0;
        }
    }

    /// The strides of a whole array with these lengths, last axis fastest.
    #[inline]
    pub(crate) fn row_major(&self) -> Self {
        let mut strides = *self;
        let mut stride = 1;
        for axis in (0..self.axes).rev() {
            strides.numbers[axis] = stride;
            stride *= self.numbers[axis];
        }
        strides
    }

    /// The same with one axis taken out.
    #[inline]
    pub(crate) fn without(&self, axis: Axis) -> Self {
        let mut kept = *self;
        kept.axes -= 1;
        for place in axis.0..kept.axes {
            kept.numbers[place] = self.numbers[place + 1];
        }
        kept
    }
}

impl Index<usize> for IxDyn {
    type Output = usize;

    #[inline]
    fn index(&self, axis: usize) -> &usize {
        &self.numbers[axis]
    }
}

impl Dimension for Ix1 {
    fn numbers(&self) -> &[usize] {
        std::slice::from_ref(&self.0)
    }

    fn of(numbers: &[usize]) -> Result<Self, ShapeError> {
        match numbers {
            [number] => Ok(Self(*number)),
            _ => Err(ShapeError),
        }
    }
}

impl Dimension for IxDyn {
    #[inline]
    fn numbers(&self) -> &[usize] {
        &self.numbers[..self.axes]
    }

    fn of(numbers: &[usize]) -> Result<Self, ShapeError> {
        Ok(IxDyn(numbers))
    }
}
