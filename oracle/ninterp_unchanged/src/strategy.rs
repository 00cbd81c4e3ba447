//! What the given files name through their parent module, and those files.

use ndarray::prelude::*;
use num_traits::{Float, Zero};
use std::ops::{Index, Sub};

use grid::locate_lower_index;

include!(concat!(env!("OUT_DIR"), "/modules.rs"));

/// One entry for every axis, or a single one for all of them.
#[derive(Debug, Clone, PartialEq)]
pub enum Broadcastable<T> {
    /// The same entry for every axis.
    Broadcast(T),
    /// An entry for each axis.
    Each(Vec<T>),
}

impl<T> Index<usize> for Broadcastable<T> {
    type Output = T;

    fn index(&self, axis: usize) -> &T {
        match self {
            Self::Broadcast(entry) => entry,
            Self::Each(entries) => &entries[axis],
        }
    }
}

/// Why data do not suit a strategy.
#[derive(Debug, Clone, PartialEq)]
pub enum ValidateError {
    /// A step that differs from the first one of its axis.
    NonUniform {
        /// The axis.
        dim: usize,
        /// The knot before the step.
        index: usize,
    },
    /// Any other reason, in words.
    Other(String),
}

/// Why there is no value at a point.
#[derive(Debug, Clone, PartialEq)]
pub enum InterpolateError {
    /// The reason in words.
    Other(String),
}

/// Which neighbour a step takes.
#[derive(Debug, Clone, Copy, PartialEq, Eq)]
pub enum StepDirection {
    /// The knot below.
    Lower,
    /// The knot above.
    Upper,
}

/// A cache with nothing in it.
pub(crate) fn empty_cache<T>() -> ArrayD<T> {
    ArrayD::from_shape_vec(IxDyn(&[0]), Vec::new()).expect("no numbers fill a length of zero")
}
