//! Stand-in for the part of ndarray that the unchanged files use: places and
//! strides over a flat list, last axis fastest. It does no float arithmetic.

mod dimension;
mod lane;
mod zip;

pub use dimension::{Axis, Dimension, Ix1, IxDyn, ShapeError};
pub use lane::LaneMut;
pub use zip::Zip;

use dimension::Layout;
use num_traits::Zero;
use std::fmt::{self, Debug};
use std::marker::PhantomData;
use std::ops::{Deref, Index};

/// What most users of ndarray name.
pub mod prelude {
    pub use crate::{ArrayD, ArrayView1, ArrayViewD, Axis, Ix1, IxDyn};
}

/// An array over a flat storage of numbers that it owns or borrows.
#[derive(Clone, Copy)]
pub struct ArrayBase<S, D> {
    storage: S,
    layout: Layout,
    dimension: PhantomData<D>,
}

/// An array that owns its numbers, with a count of axes known at run time.
pub type ArrayD<A> = ArrayBase<Vec<A>, IxDyn>;
/// A borrowed array.
pub type ArrayView<'a, A, D> = ArrayBase<&'a [A], D>;
/// A borrowed array of one axis.
pub type ArrayView1<'a, A> = ArrayView<'a, A, Ix1>;
/// A borrowed array with a count of axes known at run time.
pub type ArrayViewD<'a, A> = ArrayView<'a, A, IxDyn>;
/// A borrowed array that may be written.
pub type ArrayViewMut<'a, A, D> = ArrayBase<&'a mut [A], D>;

impl<S, D> ArrayBase<S, D> {
    fn new(storage: S, layout: Layout) -> Self {
        Self {
            storage,
            layout,
            dimension: PhantomData,
        }
    }

    /// How many axes there are.
    pub fn ndim(&self) -> usize {
        self.layout.lengths().len()
    }

    /// The lengths of the axes.
    pub fn shape(&self) -> &[usize] {
        self.layout.lengths()
    }

    /// The length of one axis.
    pub fn len_of(&self, axis: Axis) -> usize {
        self.layout.lengths()[axis.0]
    }

    /// How many numbers there are.
    pub fn len(&self) -> usize {
        self.layout.count()
    }

    /// Whether there is no number.
    pub fn is_empty(&self) -> bool {
        self.len() == 0
    }
}

impl<A, S: Deref<Target = [A]>, D> ArrayBase<S, D> {
    /// The whole array, borrowed.
    pub fn view(&self) -> ArrayView<'_, A, D> {
        ArrayBase::new(&self.storage, self.layout)
    }

    /// The part with one index fixed on an axis, which is then gone.
    pub fn index_axis(&self, axis: Axis, index: usize) -> ArrayViewD<'_, A> {
        ArrayBase::new(&self.storage, self.layout.fixed(axis, index))
    }

    /// The numbers, last axis fastest.
    pub fn iter<'a>(&'a self) -> impl Iterator<Item = &'a A>
    where
        A: 'a,
    {
        (0..self.len()).map(|rank| &self.storage[self.layout.position(rank)])
    }

    /// The first number of one axis.
    pub fn first(&self) -> Option<&A> {
        self.iter().next()
    }

    /// The last number of one axis.
    pub fn last(&self) -> Option<&A> {
        let rank = self.len().checked_sub(1)?;
        Some(&self.storage[self.layout.position(rank)])
    }

    /// The lines along an axis, in the order of the other axes.
    pub fn lanes(&self, axis: Axis) -> Vec<ArrayView1<'_, A>> {
        let starts = self.layout.lane_starts(axis);
        let lane = |start| ArrayBase::new(&*self.storage, self.layout.lane(axis, start));
        starts.into_iter().map(lane).collect()
    }

    /// The same numbers in an array of their own.
    pub fn to_owned(&self) -> ArrayBase<Vec<A>, D>
    where
        A: Clone,
    {
        let layout = Layout::row_major(self.layout.lengths());
        ArrayBase::new(self.iter().cloned().collect(), layout)
    }

    /// The same array with its count of axes known, or an error if it is another.
    pub fn into_dimensionality<E: Dimension>(self) -> Result<ArrayBase<S, E>, ShapeError> {
        if E::AXES.is_some_and(|axes| axes != self.ndim()) {
            return Err(ShapeError);
        }
        Ok(ArrayBase::new(self.storage, self.layout))
    }
}

impl<A> ArrayD<A> {
    /// An array of zeros.
    pub fn zeros(shape: IxDyn) -> Self
    where
        A: Clone + Zero,
    {
        Self::from_shape_fn(shape, |_| A::zero())
    }

    /// An array with each number given by its place.
    pub fn from_shape_fn(shape: IxDyn, number: impl FnMut(IxDyn) -> A) -> Self {
        let layout = Layout::row_major(shape.lengths());
        let places = (0..layout.count()).map(|rank| layout.place(rank));
        let numbers = places.map(number).collect();
        ArrayBase::new(numbers, layout)
    }

    /// An array over numbers that are there already.
    pub fn from_shape_vec(shape: IxDyn, numbers: Vec<A>) -> Result<Self, ShapeError> {
        let layout = Layout::row_major(shape.lengths());
        if layout.count() != numbers.len() {
            return Err(ShapeError);
        }
        Ok(ArrayBase::new(numbers, layout))
    }

    /// The part with one index fixed on an axis, to be written.
    pub fn index_axis_mut(&mut self, axis: Axis, index: usize) -> ArrayViewMut<'_, A, IxDyn> {
        let layout = self.layout.fixed(axis, index);
        ArrayBase::new(&mut self.storage, layout)
    }

    /// The lines along an axis, to be written, in the order of the other axes.
    pub fn lanes_mut(&mut self, axis: Axis) -> Vec<LaneMut<'_, A>> {
        lane::lanes_mut(&mut self.storage, &self.layout, axis)
    }
}

impl<A: Clone, D> ArrayViewMut<'_, A, D> {
    /// Stores the numbers of an array of the same shape.
    pub fn assign<S: Deref<Target = [A]>, E>(&mut self, numbers: &ArrayBase<S, E>) {
        assert_eq!(self.shape(), numbers.shape());
        for (rank, number) in numbers.iter().enumerate() {
            self.storage[self.layout.position(rank)] = number.clone();
        }
    }
}

impl<'a, A> From<&'a [A]> for ArrayView1<'a, A> {
    fn from(numbers: &'a [A]) -> Self {
        ArrayBase::new(numbers, Layout::row_major(&[numbers.len()]))
    }
}

impl<'a, A> From<&'a Vec<A>> for ArrayView1<'a, A> {
    fn from(numbers: &'a Vec<A>) -> Self {
        Self::from(numbers.as_slice())
    }
}

impl<A, S: Deref<Target = [A]>> Index<usize> for ArrayBase<S, Ix1> {
    type Output = A;

    fn index(&self, index: usize) -> &A {
        assert!(index < self.len());
        &self.storage[self.layout.position(index)]
    }
}

impl<A, S: Deref<Target = [A]>> Index<IxDyn> for ArrayBase<S, IxDyn> {
    type Output = A;

    fn index(&self, place: IxDyn) -> &A {
        &self.storage[self.layout.position_of_place(&place)]
    }
}

impl<A: Debug, S: Deref<Target = [A]>, D> Debug for ArrayBase<S, D> {
    fn fmt(&self, formatter: &mut fmt::Formatter<'_>) -> fmt::Result {
        write!(formatter, "{:?} ", self.shape())?;
        formatter.debug_list().entries(self.iter()).finish()
    }
}

impl<A: PartialEq, S: Deref<Target = [A]>, D> PartialEq for ArrayBase<S, D> {
    fn eq(&self, other: &Self) -> bool {
        self.shape() == other.shape() && self.iter().eq(other.iter())
    }
}

#[cfg(test)]
mod tests;
