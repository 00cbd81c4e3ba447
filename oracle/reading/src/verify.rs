//! The call that holds a tensor against the build of its own samples.

use crate::ends::kinds_stand;
use crate::refusals::{all_finite, clear_after_work, require, Refusal};
use crate::shape::Shape;
use crate::tensor::{check_lengths, check_scratch, checked_conditions, tensor_of};

/// What is told of a tensor: whether it is whole, and where not the place and the mask of the
/// first number that differs, and how many do.
#[derive(Debug, Clone, Copy, Default, PartialEq, Eq)]
pub struct Found {
    pub whole: bool,
    pub place: [usize; 4],
    pub mask: usize,
    pub differing: usize,
}

/// Whether every number of a tensor has the bits that a build of its samples gives it. The place of
/// the first that differs goes to a slot of four; 1 for a whole tensor or 0, the mask of that number
/// and how many differ go to a slot of three.
#[allow(clippy::too_many_arguments)]
pub fn verify(
    axes: usize,
    points: &[usize],
    kinds: &[u8],
    values: &[f64],
    knots: &[f64],
    tensor: &[f64],
    scratch: &mut [f64],
    place: &mut [usize],
    found: &mut [usize],
) -> Refusal {
    if place.len() != 4 || found.len() != 3 {
        return Shape::checked(axes, points).err().unwrap_or(4);
    }
    let (refusal, told) = verified(axes, points, kinds, values, knots, tensor, scratch);
    place.copy_from_slice(&told.place);
    found.copy_from_slice(&[usize::from(told.whole), told.mask, told.differing]);
    refusal
}

/// The same with no slots: the refusal, and what is told of the tensor, which is nothing after one.
pub fn verified(
    axes: usize,
    points: &[usize],
    kinds: &[u8],
    values: &[f64],
    knots: &[f64],
    tensor: &[f64],
    scratch: &mut [f64],
) -> (Refusal, Found) {
    let found = Shape::checked(axes, points).and_then(|shape| {
        check_lengths(&shape, kinds, values, knots, tensor)?;
        kinds_stand(&kinds[..2 * axes])?;
        check_scratch(&shape, scratch)?;
        require(all_finite(tensor), 7)?;
        let conditions = checked_conditions(&shape, kinds, values, knots)?;
        let samples: Vec<f64> = tensor.iter().step_by(shape.masks()).copied().collect();
        let fresh = tensor_of(&shape, &conditions, knots, &samples);
        require(all_finite(&fresh), 10)?;
        Ok(compared(&shape, tensor, &fresh))
    });
    let refusal = found.err().unwrap_or(0);
    clear_after_work(scratch, refusal);
    (refusal, found.unwrap_or_default())
}

/// What differs, number by number and bit by bit.
fn compared(shape: &Shape, tensor: &[f64], fresh: &[f64]) -> Found {
    let pairs = tensor.iter().zip(fresh).enumerate();
    let differing: Vec<usize> = pairs
        .filter(|(_, (number, fresh))| number.to_bits() != fresh.to_bits())
        .map(|(at, _)| at)
        .collect();
    let Some(first) = differing.first() else {
        return Found {
            whole: true,
            ..Found::default()
        };
    };
    let mut place = [0; 4];
    place[..shape.axes()].copy_from_slice(&shape.place(first / shape.masks()));
    Found {
        whole: false,
        place,
        mask: first % shape.masks(),
        differing: differing.len(),
    }
}
