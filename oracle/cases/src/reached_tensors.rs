//! Edges that the tensors to be verified are to reach, and whether one that was answered does.

use crate::case::{Calls, Case};
use crate::reached::Edge;
use crate::reading_calls::Reading;
use reading::Shape;

/// How many edges there are.
pub const TENSOR_COUNT: usize = 39;

/// A sample never differs, since it is held against itself: so there is no edge of mask 0.
pub const TENSOR_EDGES: [Edge; TENSOR_COUNT] = [
    Edge {
        name: "a whole tensor",
        is_reached: is_whole,
    },
    Edge {
        name: "a whole tensor with minus zero among its derivatives",
        is_reached: |case, refusal| is_whole(case, refusal) && a_derivative_of_minus_zero(case),
    },
    Edge {
        name: "a tensor that is not whole",
        is_reached: differs,
    },
    Edge {
        name: "a tensor of more than 3,900 numbers that is not whole",
        is_reached: |case, refusal| differs(case, refusal) && tensor(case).len() > 3900,
    },
    Edge {
        name: "several numbers that differ, which a change to the sample that stands renews",
        is_reached: |case, refusal| several_differ(case, refusal) && one_change_renews(case),
    },
    Edge {
        name: "several numbers that differ, which no such change renews",
        is_reached: |case, refusal| several_differ(case, refusal) && !one_change_renews(case),
    },
    Edge {
        name: "a first number that differs at mask 1",
        is_reached: first_at_mask::<1>,
    },
    Edge {
        name: "a first number that differs at mask 2",
        is_reached: first_at_mask::<2>,
    },
    Edge {
        name: "a first number that differs at mask 3",
        is_reached: first_at_mask::<3>,
    },
    Edge {
        name: "a first number that differs at mask 4",
        is_reached: first_at_mask::<4>,
    },
    Edge {
        name: "a first number that differs at mask 5",
        is_reached: first_at_mask::<5>,
    },
    Edge {
        name: "a first number that differs at mask 6",
        is_reached: first_at_mask::<6>,
    },
    Edge {
        name: "a first number that differs at mask 7",
        is_reached: first_at_mask::<7>,
    },
    Edge {
        name: "a first number that differs at mask 8",
        is_reached: first_at_mask::<8>,
    },
    Edge {
        name: "a first number that differs at mask 9",
        is_reached: first_at_mask::<9>,
    },
    Edge {
        name: "a first number that differs at mask 10",
        is_reached: first_at_mask::<10>,
    },
    Edge {
        name: "a first number that differs at mask 11",
        is_reached: first_at_mask::<11>,
    },
    Edge {
        name: "a first number that differs at mask 12",
        is_reached: first_at_mask::<12>,
    },
    Edge {
        name: "a first number that differs at mask 13",
        is_reached: first_at_mask::<13>,
    },
    Edge {
        name: "a first number that differs at mask 14",
        is_reached: first_at_mask::<14>,
    },
    Edge {
        name: "a first number that differs at mask 15",
        is_reached: first_at_mask::<15>,
    },
    Edge {
        name: "on one axis a first number that differs at the largest mask",
        is_reached: first_at_the_largest_mask::<1>,
    },
    Edge {
        name: "on two axes a first number that differs at the largest mask",
        is_reached: first_at_the_largest_mask::<2>,
    },
    Edge {
        name: "on three axes a first number that differs at the largest mask",
        is_reached: first_at_the_largest_mask::<3>,
    },
    Edge {
        name: "on four axes a first number that differs at the largest mask",
        is_reached: first_at_the_largest_mask::<4>,
    },
    Edge {
        name: "a first number that differs at the first place",
        is_reached: |case, refusal| differs(case, refusal) && first_number(case) == 0,
    },
    Edge {
        name: "a first number that differs at the last place",
        is_reached: |case, refusal| differs(case, refusal) && at_the_last_place(case),
    },
    Edge {
        name: "a first number that differs on the rim, at neither of these places",
        is_reached: |case, refusal| {
            let at_an_end = || first_number(case) == 0 || at_the_last_place(case);
            differs(case, refusal) && on_the_rim(case) && !at_an_end()
        },
    },
    Edge {
        name: "a first number that differs inside the rim",
        is_reached: |case, refusal| differs(case, refusal) && !on_the_rim(case),
    },
    Edge {
        name: "one number alone that differs",
        is_reached: one_differs,
    },
    Edge {
        name: "the number behind the first sample, which alone differs",
        is_reached: |case, refusal| one_differs(case, refusal) && first_position(case) == 1,
    },
    Edge {
        name: "the last number, which alone differs",
        is_reached: |case, refusal| {
            one_differs(case, refusal) && first_position(case) == tensor(case).len() - 1
        },
    },
    Edge {
        name: "one number alone that differs by one unit",
        is_reached: |case, refusal| {
            one_differs(case, refusal) && {
                let (given, fresh) = first_pair(case);
                given.to_bits().abs_diff(fresh.to_bits()) == 1
            }
        },
    },
    Edge {
        name: "one number alone that differs, -0.0 for +0.0",
        is_reached: |case, refusal| one_differs(case, refusal) && zeros_differ(case, -0.0),
    },
    Edge {
        name: "one number alone that differs, +0.0 for -0.0",
        is_reached: |case, refusal| one_differs(case, refusal) && zeros_differ(case, 0.0),
    },
    Edge {
        name: "all numbers but the samples that differ",
        is_reached: |case, refusal| {
            let derivatives = || tensor(case).len() - shape(case).samples_length();
            differs(case, refusal) && found(case)[2] == derivatives()
        },
    },
    Edge {
        name: "an infinity or NaN among the derivatives and nowhere else",
        is_reached: |case, refusal| refusal == 7 && refusal_without_derivatives(case) != 7,
    },
    Edge {
        name: "a slot for a place of another length, and no other length that is off",
        is_reached: |case, refusal| refusal == 4 && refusal_with_slot(case, "place", 4) != 4,
    },
    Edge {
        name: "a slot for what is found of another length, and no other length that is off",
        is_reached: |case, refusal| refusal == 4 && refusal_with_slot(case, "found", 3) != 4,
    },
];

/// Whether the tensor is whole, the mask of the first number that differs, and how many do.
fn found(case: &Case) -> &[usize] {
    case.argument("found").numbers()
}

fn tensor(case: &Case) -> &[f64] {
    case.argument("tensor").floats()
}

fn is_whole(case: &Case, refusal: usize) -> bool {
    refusal == 0 && found(case)[0] == 1
}

fn differs(case: &Case, refusal: usize) -> bool {
    refusal == 0 && found(case)[0] == 0
}

fn one_differs(case: &Case, refusal: usize) -> bool {
    differs(case, refusal) && found(case)[2] == 1
}

fn several_differ(case: &Case, refusal: usize) -> bool {
    differs(case, refusal) && found(case)[2] > 1
}

fn first_at_mask<const MASK: usize>(case: &Case, refusal: usize) -> bool {
    differs(case, refusal) && found(case)[1] == MASK
}

fn first_at_the_largest_mask<const AXES: usize>(case: &Case, refusal: usize) -> bool {
    let on_axes = case.argument("axes").number() == AXES;
    on_axes && differs(case, refusal) && found(case)[1] == (1 << AXES) - 1
}

/// The shape of a case that was accepted.
fn shape(case: &Case) -> Shape<'_> {
    let points = case.argument("points").numbers();
    let shape = Shape::checked(case.argument("axes").number(), points);
    shape.unwrap_or_else(|refusal| panic!("refused {refusal} where it was accepted"))
}

/// The place of the first number that differs, on the axes in use.
fn first_place(case: &Case) -> &[usize] {
    &case.argument("place").numbers()[..shape(case).axes()]
}

/// The number of the sample there.
fn first_number(case: &Case) -> usize {
    shape(case).number(first_place(case))
}

/// Where the first number that differs stands in the tensor.
fn first_position(case: &Case) -> usize {
    shape(case).position(first_place(case), found(case)[1])
}

fn at_the_last_place(case: &Case) -> bool {
    first_number(case) == shape(case).samples_length() - 1
}

/// Whether the first number that differs is at an end of some axis.
fn on_the_rim(case: &Case) -> bool {
    let mut axes = first_place(case).iter().zip(shape(case).points());
    axes.any(|(index, points)| *index == 0 || *index == points - 1)
}

fn a_derivative_of_minus_zero(case: &Case) -> bool {
    let masks = shape(case).masks();
    let mut numbers = tensor(case).iter().enumerate();
    numbers.any(|(at, number)| at % masks != 0 && number.to_bits() == 1 << 63)
}

/// The build of the samples of a tensor that was accepted.
fn fresh(case: &Case) -> Vec<f64> {
    let samples = tensor(case).iter().step_by(shape(case).masks());
    let samples: Vec<f64> = samples.copied().collect();
    let mut fresh = vec![0.0; tensor(case).len()];
    let refusal = reading::build(
        case.argument("axes").number(),
        case.argument("points").numbers(),
        case.argument("kinds").bytes(),
        case.argument("values").floats(),
        case.argument("knots").floats(),
        &samples,
        &mut fresh,
        &mut vec![0.0; case.argument("scratch").length()],
    );
    assert_eq!(refusal, 0, "what is verified can be built");
    fresh
}

/// The first number that differs, and the one that belongs there.
fn first_pair(case: &Case) -> (f64, f64) {
    let at = first_position(case);
    (tensor(case)[at], fresh(case)[at])
}

/// Whether the first number that differs is this zero, and another zero belongs there.
fn zeros_differ(case: &Case, zero: f64) -> bool {
    let given = tensor(case)[first_position(case)];
    given.to_bits() == zero.to_bits() && first_pair(case).1 == 0.0
}

/// Whether some change to the sample that stands makes the tensor whole. A change renews a number
/// where both have the same indices on the axes outside the number's mask: so on each axis all that
/// differ and have no slope along it must have one index.
fn one_change_renews(case: &Case) -> bool {
    let shape = shape(case);
    let pairs = tensor(case).iter().zip(fresh(case)).enumerate();
    let differing = pairs.filter(|(_, (given, fresh))| given.to_bits() != fresh.to_bits());
    let entry = |at: usize| (shape.place(at / shape.masks()), at % shape.masks());
    let differing: Vec<(Vec<usize>, usize)> = differing.map(|(at, _)| entry(at)).collect();
    (0..shape.axes()).all(|axis| {
        let outside = differing.iter().filter(|(_, mask)| mask & 1 << axis == 0);
        let mut indices = outside.map(|(place, _)| place[axis]);
        let first = indices.next();
        indices.all(|index| Some(index) == first)
    })
}

/// The refusal with zeros for all numbers but the samples.
fn refusal_without_derivatives(case: &Case) -> usize {
    let mut case = case.clone();
    let masks = shape(&case).masks();
    let numbers = case.argument_mut("tensor").floats_mut().iter_mut();
    for (_, number) in numbers.enumerate().filter(|(at, _)| at % masks != 0) {
        *number = 0.0;
    }
    Reading.run(&mut case).expect("the reading answers all")
}

/// The refusal with a slot of its own length.
fn refusal_with_slot(case: &Case, name: &str, length: usize) -> usize {
    let mut case = case.clone();
    case.argument_mut(name).resize(length);
    Reading.run(&mut case).expect("the reading answers all")
}

#[cfg(test)]
mod tests {
    use super::*;
    use crate::case::Argument;
    use crate::random::Random;
    use crate::verification::verify;

    /// Whether the change at a place to the sample that stands there makes a tensor whole.
    fn renews(case: &Case, place: &[usize]) -> bool {
        let mut tensor = tensor(case).to_vec();
        let sample = tensor[shape(case).position(place, 0)];
        let mut four = [0; 4];
        four[..place.len()].copy_from_slice(place);
        let refusal = reading::change(
            case.argument("axes").number(),
            case.argument("points").numbers(),
            case.argument("kinds").bytes(),
            case.argument("values").floats(),
            case.argument("knots").floats(),
            &mut tensor,
            &mut vec![0.0; case.argument("scratch").length()],
            &four,
            sample,
            &mut [0],
        );
        let mut changed = case.clone();
        *changed.argument_mut("tensor") = Argument::of_floats(&tensor);
        refusal == 0 && Reading.run(&mut changed) == Some(0) && is_whole(&changed, 0)
    }

    /// What is seen from the numbers that differ is what the changes do.
    #[test]
    fn one_change_renews_where_it_is_said_to() {
        let mut seen = [0; 2];
        for number in 0..400 {
            let mut case = verify(&mut Random::of_case(9, 0, number));
            let refusal = Reading.run(&mut case).unwrap();
            if !several_differ(&case, refusal) || shape(&case).samples_length() > 100 {
                continue;
            }
            let mut places = (0..shape(&case).samples_length()).map(|at| shape(&case).place(at));
            let renewed = places.any(|place| renews(&case, &place));
            assert_eq!(one_change_renews(&case), renewed, "{number}");
            seen[usize::from(renewed)] += 1;
        }
        assert!(seen.iter().all(|seen| *seen > 15), "{seen:?}");
    }
}
