//! Walking one array that is written beside four that are read.

use crate::{ArrayViewD, ArrayViewMut, IxDyn};

/// Arrays of one shape, walked together.
pub struct Zip<'a, 'b, 'c, A> {
    target: &'a mut ArrayViewMut<'b, A, IxDyn>,
    sources: Vec<ArrayViewD<'c, A>>,
}

impl<'a, 'b, 'c, A> Zip<'a, 'b, 'c, A> {
    /// Begins with the array to be written.
    pub fn from(target: &'a mut ArrayViewMut<'b, A, IxDyn>) -> Self {
        Self {
            target,
            sources: Vec::new(),
        }
    }

    /// Adds an array to be read.
    pub fn and(mut self, source: &ArrayViewD<'c, A>) -> Self {
        assert_eq!(self.target.shape(), source.shape());
        self.sources
            .push(ArrayViewD::new(source.storage, source.layout));
        self
    }

    /// Calls the function with the five numbers of every place.
    pub fn for_each(self, mut function: impl FnMut(&mut A, &A, &A, &A, &A)) {
        let [first, second, third, fourth] = self.sources.as_slice() else {
            panic!("the unchanged files walk four arrays beside the written one");
        };
        for rank in 0..self.target.len() {
            let slot = &mut self.target.storage[self.target.layout.position(rank)];
            let number = |source: &ArrayViewD<'c, A>| &source.storage[source.layout.position(rank)];
            let (first, second) = (number(first), number(second));
            let (third, fourth) = (number(third), number(fourth));
            function(slot, first, second, third, fourth);
        }
    }
}
