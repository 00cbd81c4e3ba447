//! Walking one array that is written beside four that are read.

use crate::walk::inner_loops;
use crate::{ArrayViewD, ArrayViewMut, Dimension, IxDyn};

/// An array to be written, and those that were added to be read.
pub struct Zip<'a, 'b, A, Sources> {
    target: &'a mut ArrayViewMut<'b, A, IxDyn>,
    sources: Sources,
}

impl<'a, 'b, A> Zip<'a, 'b, A, ()> {
    /// Begins with the array to be written.
    pub fn from(target: &'a mut ArrayViewMut<'b, A, IxDyn>) -> Self {
        Self {
            target,
            sources: (),
        }
    }
}

impl<'a, 'b, A, Sources> Zip<'a, 'b, A, Sources> {
    /// Adds an array to be read.
    pub fn and<'c>(
        self,
        source: &'c ArrayViewD<'c, A>,
    ) -> Zip<'a, 'b, A, (Sources, &'c ArrayViewD<'c, A>)> {
        assert_eq!(self.target.shape(), source.shape());
        Zip {
            target: self.target,
            sources: (self.sources, source),
        }
    }
}

/// Four arrays in the order in which they were added.
type Four<'c, A> = (
    (
        (((), &'c ArrayViewD<'c, A>), &'c ArrayViewD<'c, A>),
        &'c ArrayViewD<'c, A>,
    ),
    &'c ArrayViewD<'c, A>,
);

impl<A> Zip<'_, '_, A, Four<'_, A>> {
    /// Calls the function with the five numbers of every place.
    #[inline]
    pub fn for_each(self, mut function: impl FnMut(&mut A, &A, &A, &A, &A)) {
        let (((((), first), second), third), fourth) = self.sources;
        let target = self.target;
        let strides = [
            target.strides.numbers(),
            first.strides.numbers(),
            second.strides.numbers(),
            third.strides.numbers(),
            fourth.strides.numbers(),
        ];
        inner_loops(first.shape(), strides, |starts, length, strides| {
            let at = |array: usize, index: usize| starts[array] + index * strides[array];
            for index in 0..length {
                function(
                    &mut target.storage[at(0, index)],
                    &first.storage[at(1, index)],
                    &second.storage[at(2, index)],
                    &third.storage[at(3, index)],
                    &fourth.storage[at(4, index)],
                );
            }
        });
    }
}
