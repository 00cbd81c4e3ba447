//! Stand-in for the part of ndarray that the unchanged files use, made for
//! speed: the benchmark holds us against it. A view is a start and a stride for
//! each axis, an index is checked once, the innermost axis is walked in a plain
//! loop, and no shape is on the heap.

mod dimension;
mod lanes;
mod walk;
mod zip;

pub use dimension::{Axis, Dimension, Ix1, IxDyn, ShapeError};
pub use lanes::{LaneMut, Lanes, LanesMut};
pub use zip::Zip;

use num_traits::Zero;
use std::fmt::{self, Debug};
use std::ops::{Deref, Index};
use walk::Places;

/// What most users of ndarray name.
pub mod prelude {
    pub use crate::{ArrayD, ArrayView1, ArrayViewD, Axis, Ix1, IxDyn};
}

/// An array over a flat storage that begins with the array's first number.
#[derive(Clone, Copy)]
pub struct ArrayBase<S, D> {
    storage: S,
    lengths: D,
    strides: D,
}

/// An array that owns its numbers, with a count of axes known at run time.
pub type ArrayD<A> = ArrayBase<Vec<A>, IxDyn>;
/// A borrowed array.
pub type ArrayView<'a, A, D> = ArrayBase<&'a [A], D>;
/// A borrowed array of one axis.
pub type ArrayView1<'a, A> = ArrayView<'a, A, Ix1>;
/// A borrowed array with a count of axes known at run time.
pub type ArrayViewD<'a, A> = ArrayView<'a, A, IxDyn>;
/// A borrowed array that may be written.
pub type ArrayViewMut<'a, A, D> = ArrayBase<&'a mut [A], D>;

impl<S, D: Dimension> ArrayBase<S, D> {
    /// How many axes there are.
    pub fn ndim(&self) -> usize {
        self.lengths.numbers().len()
    }

    /// The lengths of the axes.
    pub fn shape(&self) -> &[usize] {
        self.lengths.numbers()
    }

    /// The length of one axis.
    pub fn len_of(&self, axis: Axis) -> usize {
        self.shape()[axis.0]
    }

    /// How many numbers there are.
    pub fn len(&self) -> usize {
        self.shape().iter().product()
    }

    /// Whether there is no number.
    pub fn is_empty(&self) -> bool {
        self.len() == 0
    }

    fn stride_of(&self, axis: Axis) -> usize {
        self.strides.numbers()[axis.0]
    }
}

impl<A, S: Deref<Target = [A]>, D: Dimension> ArrayBase<S, D> {
    /// The whole array, borrowed.
    pub fn view(&self) -> ArrayView<'_, A, D> {
        ArrayBase {
            storage: &self.storage,
            lengths: self.lengths,
            strides: self.strides,
        }
    }

    /// The numbers, last axis fastest.
    pub fn iter<'a>(&'a self) -> impl Iterator<Item = &'a A>
    where
        A: 'a,
    {
        let places = Places::new(self.shape(), self.strides.numbers());
        places.map(|place| &self.storage[place])
    }

    /// The same array with its count of axes known, or an error if it is another.
    pub fn into_dimensionality<E: Dimension>(self) -> Result<ArrayBase<S, E>, ShapeError> {
        Ok(ArrayBase {
            lengths: E::of(self.lengths.numbers())?,
            strides: E::of(self.strides.numbers())?,
            storage: self.storage,
        })
    }
}

impl<A, S: Deref<Target = [A]>> ArrayBase<S, IxDyn> {
    /// The part with one index fixed on an axis, which is then gone.
    pub fn index_axis(&self, axis: Axis, index: usize) -> ArrayViewD<'_, A> {
        assert!(index < self.len_of(axis));
        ArrayBase {
            storage: &self.storage[index * self.stride_of(axis)..],
            lengths: self.lengths.without(axis),
            strides: self.strides.without(axis),
        }
    }

    /// The lines along an axis, in the order of the other axes.
    pub fn lanes(&self, axis: Axis) -> Lanes<'_, A> {
        Lanes::new(&self.storage, &self.lengths, &self.strides, axis)
    }

    /// The same numbers in an array of their own.
    pub fn to_owned(&self) -> ArrayD<A>
    where
        A: Clone,
    {
        let mut numbers = Vec::with_capacity(self.len());
        let strides = [self.strides.numbers()];
        walk::inner_loops(self.shape(), strides, |[start], length, [stride]| {
            let lane = self.storage[start..].iter().step_by(stride).take(length);
            numbers.extend(lane.cloned());
        });
        ArrayBase::whole(numbers, self.lengths)
    }
}

impl<A> ArrayD<A> {
    fn whole(storage: Vec<A>, lengths: IxDyn) -> Self {
        ArrayBase {
            storage,
            lengths,
            strides: lengths.row_major(),
        }
    }

    /// An array of zeros.
    pub fn zeros(shape: IxDyn) -> Self
    where
        A: Clone + Zero,
    {
        Self::whole(vec![A::zero(); shape.product()], shape)
    }

    /// An array with each number given by its place.
    pub fn from_shape_fn(shape: IxDyn, mut number: impl FnMut(IxDyn) -> A) -> Self {
        let mut place = shape.all_zero();
        let numbers = (0..shape.product()).map(|_| {
            let here = place;
            place.step_within(&shape);
            number(here)
        });
        Self::whole(numbers.collect(), shape)
    }

    /// An array over numbers that are there already.
    pub fn from_shape_vec(shape: IxDyn, numbers: Vec<A>) -> Result<Self, ShapeError> {
        if shape.product() != numbers.len() {
            return Err(ShapeError);
        }
        Ok(Self::whole(numbers, shape))
    }

    /// The last number.
    pub fn last(&self) -> Option<&A> {
        self.storage.last()
    }

    /// The part with one index fixed on an axis, to be written.
    pub fn index_axis_mut(&mut self, axis: Axis, index: usize) -> ArrayViewMut<'_, A, IxDyn> {
        assert!(index < self.len_of(axis));
        let start = index * self.stride_of(axis);
        ArrayBase {
            lengths: self.lengths.without(axis),
            strides: self.strides.without(axis),
            storage: &mut self.storage[start..],
        }
    }

    /// The lines along an axis, to be written, in the order of the other axes.
    pub fn lanes_mut(&mut self, axis: Axis) -> LanesMut<'_, A> {
        LanesMut::new(&mut self.storage, &self.lengths, &self.strides, axis)
    }
}

impl<A: Clone> ArrayViewMut<'_, A, IxDyn> {
    /// Stores the numbers of an array of the same shape.
    pub fn assign<S: Deref<Target = [A]>>(&mut self, numbers: &ArrayBase<S, IxDyn>) {
        assert_eq!(self.shape(), numbers.shape());
        let strides = [self.strides.numbers(), numbers.strides.numbers()];
        walk::inner_loops(numbers.shape(), strides, |starts, length, strides| {
            let slots = self.storage[starts[0]..].iter_mut().step_by(strides[0]);
            let lane = numbers.storage[starts[1]..].iter().step_by(strides[1]);
            for (slot, number) in slots.zip(lane).take(length) {
                *slot = number.clone();
            }
        });
    }
}

impl<'a, A> ArrayView1<'a, A> {
    pub(crate) fn line(storage: &'a [A], length: usize, stride: usize) -> Self {
        ArrayBase {
            storage,
            lengths: Ix1(length),
            strides: Ix1(stride),
        }
    }

    /// The first number.
    pub fn first(&self) -> Option<&A> {
        self.storage.first().filter(|_| self.lengths.0 > 0)
    }

    /// The last number.
    pub fn last(&self) -> Option<&A> {
        let index = self.lengths.0.checked_sub(1)?;
        self.storage.get(index * self.strides.0)
    }
}

impl<'a, A> From<&'a [A]> for ArrayView1<'a, A> {
    fn from(numbers: &'a [A]) -> Self {
        Self::line(numbers, numbers.len(), 1)
    }
}

impl<'a, A> From<&'a Vec<A>> for ArrayView1<'a, A> {
    fn from(numbers: &'a Vec<A>) -> Self {
        Self::from(numbers.as_slice())
    }
}

impl<A> Index<usize> for ArrayView1<'_, A> {
    type Output = A;

    #[inline]
    fn index(&self, index: usize) -> &A {
        &self.storage[index * self.strides.0]
    }
}

impl<A, S: Deref<Target = [A]>> Index<IxDyn> for ArrayBase<S, IxDyn> {
    type Output = A;

    #[inline]
    fn index(&self, place: IxDyn) -> &A {
        let axes = place.numbers().iter().zip(self.strides.numbers());
        &self.storage[axes.map(|(index, stride)| index * stride).sum::<usize>()]
    }
}

impl<A: Debug, S: Deref<Target = [A]>, D: Dimension> Debug for ArrayBase<S, D> {
    fn fmt(&self, formatter: &mut fmt::Formatter<'_>) -> fmt::Result {
        write!(formatter, "{:?} ", self.shape())?;
        formatter.debug_list().entries(self.iter()).finish()
    }
}

impl<A: PartialEq, S: Deref<Target = [A]>, D: Dimension> PartialEq for ArrayBase<S, D> {
    fn eq(&self, other: &Self) -> bool {
        self.shape() == other.shape() && self.iter().eq(other.iter())
    }
}
