//! Lines of an array that may be written, all of them at once.

use crate::{ArrayBase, Axis, Layout};
use std::ops::Deref;

/// A line of an array, to be written.
pub struct LaneMut<'a, A> {
    numbers: Vec<&'a mut A>,
}

impl<A: Clone> LaneMut<'_, A> {
    /// Stores the numbers of an array of one axis.
    pub fn assign<S: Deref<Target = [A]>, D>(&mut self, numbers: &ArrayBase<S, D>) {
        assert_eq!(self.numbers.len(), numbers.len());
        for (slot, number) in self.numbers.iter_mut().zip(numbers.iter()) {
            **slot = number.clone();
        }
    }
}

/// Every line along an axis. Each number of the storage is handed to one line.
pub(crate) fn lanes_mut<'a, A>(
    storage: &'a mut [A],
    layout: &Layout,
    axis: Axis,
) -> Vec<LaneMut<'a, A>> {
    let mut slots: Vec<Option<&mut A>> = storage.iter_mut().map(Some).collect();
    let mut lanes = Vec::new();
    for start in layout.lane_starts(axis) {
        let lane = layout.lane(axis, start);
        let take = |rank| slots[lane.position(rank)].take();
        let numbers = (0..lane.count()).map(take);
        let numbers = numbers.map(|slot| slot.expect("lines along one axis share no number"));
        lanes.push(LaneMut {
            numbers: numbers.collect(),
        });
    }
    lanes
}
