//! The lines of an array along an axis.

use crate::walk::Places;
use crate::{ArrayView1, Axis, Dimension, IxDyn};
use std::marker::PhantomData;

/// The lines along an axis, to be read.
pub struct Lanes<'a, A> {
    storage: &'a [A],
    starts: Places,
    length: usize,
    stride: usize,
}

impl<'a, A> Lanes<'a, A> {
    pub(crate) fn new(storage: &'a [A], lengths: &IxDyn, strides: &IxDyn, axis: Axis) -> Self {
        Self {
            storage,
            starts: starts(lengths, strides, axis),
            length: lengths[axis.0],
            stride: strides[axis.0],
        }
    }
}

impl<'a, A> Iterator for Lanes<'a, A> {
    type Item = ArrayView1<'a, A>;

    #[inline]
    fn next(&mut self) -> Option<Self::Item> {
        let start = self.starts.next()?;
        Some(ArrayView1::line(
            &self.storage[start..],
            self.length,
            self.stride,
        ))
    }
}

/// Where each line along an axis begins.
fn starts(lengths: &IxDyn, strides: &IxDyn, axis: Axis) -> Places {
    Places::new(
        lengths.without(axis).numbers(),
        strides.without(axis).numbers(),
    )
}

/// The lines along an axis, to be written.
pub struct LanesMut<'a, A> {
    storage: *mut A,
    starts: Places,
    length: usize,
    stride: usize,
    borrowed: PhantomData<&'a mut [A]>,
}

impl<'a, A> LanesMut<'a, A> {
    pub(crate) fn new(storage: &'a mut [A], lengths: &IxDyn, strides: &IxDyn, axis: Axis) -> Self {
        assert_eq!(storage.len(), lengths.product());
        Self {
            storage: storage.as_mut_ptr(),
            starts: starts(lengths, strides, axis),
            length: lengths[axis.0],
            stride: strides[axis.0],
            borrowed: PhantomData,
        }
    }
}

impl<'a, A> Iterator for LanesMut<'a, A> {
    type Item = LaneMut<'a, A>;

    #[inline]
    fn next(&mut self) -> Option<Self::Item> {
        let start = self.starts.next()?;
        Some(LaneMut {
            // SAFETY: a whole array has every start within its storage.
            first: unsafe { self.storage.add(start) },
            length: self.length,
            stride: self.stride,
            borrowed: PhantomData,
        })
    }
}

/// A line of an array, to be written.
pub struct LaneMut<'a, A> {
    first: *mut A,
    length: usize,
    stride: usize,
    borrowed: PhantomData<&'a mut A>,
}

impl<A: Clone> LaneMut<'_, A> {
    /// Stores the numbers of an array of one axis.
    #[inline]
    pub fn assign(&mut self, numbers: &ArrayView1<A>) {
        assert_eq!(self.length, numbers.len());
        for index in 0..self.length {
            // SAFETY: the lines of a whole array lie within its storage, and no
            // two lines along one axis share a number.
            unsafe { *self.first.add(index * self.stride) = numbers[index].clone() };
        }
    }
}
