//! Walking the places of arrays, last axis fastest.

use std::array;

/// The most axes an array may have here.
const MOST_AXES: usize = 6;

/// The positions in the storage of every number, one after the other.
pub struct Places {
    axes: usize,
    lengths: [usize; MOST_AXES],
    strides: [usize; MOST_AXES],
    place: [usize; MOST_AXES],
    position: usize,
    left: usize,
}

impl Places {
    #[inline]
    pub fn new(lengths: &[usize], strides: &[usize]) -> Self {
        let mut places = Self {
            axes: lengths.len(),
            lengths: [0; MOST_AXES],
            strides: [0; MOST_AXES],
            place: [0; MOST_AXES],
            position: 0,
            left: lengths.iter().product(),
        };
        for axis in 0..lengths.len() {
            places.lengths[axis] = lengths[axis];
            places.strides[axis] = strides[axis];
        }
        places
    }
}

impl Iterator for Places {
    type Item = usize;

    #[inline]
    fn next(&mut self) -> Option<usize> {
        self.left = self.left.checked_sub(1)?;
        let position = self.position;
        let lengths = &self.lengths[..self.axes];
        step(
            &mut self.place,
            array::from_mut(&mut self.position),
            lengths,
            &[&self.strides],
        );
        Some(position)
    }
}

/// Calls the function for each line along the last axis of arrays with the same
/// lengths: with their starts, the length, and their strides there.
#[inline]
pub fn inner_loops<const ARRAYS: usize>(
    lengths: &[usize],
    strides: [&[usize]; ARRAYS],
    mut function: impl FnMut([usize; ARRAYS], usize, [usize; ARRAYS]),
) {
    let Some((length, outer)) = lengths.split_last() else {
        return function([0; ARRAYS], 1, [1; ARRAYS]);
    };
    let inner = strides.map(|strides| strides[outer.len()]);
    let mut place = [0; MOST_AXES];
    let mut starts = [0; ARRAYS];
    for _ in 0..outer.iter().product() {
        function(starts, *length, inner);
        step(&mut place, &mut starts, outer, &strides);
    }
}

/// Goes on to the next place, last axis fastest, with the positions in every array.
#[inline]
fn step<const ARRAYS: usize>(
    place: &mut [usize; MOST_AXES],
    positions: &mut [usize; ARRAYS],
    lengths: &[usize],
    strides: &[&[usize]; ARRAYS],
) {
    for axis in (0..lengths.len()).rev() {
        place[axis] += 1;
        for (position, strides) in positions.iter_mut().zip(strides) {
            *position += strides[axis];
        }
        if place[axis] < lengths[axis] {
            return;
        }
        place[axis] = 0;
        for (position, strides) in positions.iter_mut().zip(strides) {
            *position -= strides[axis] * lengths[axis];
        }
    }
}
