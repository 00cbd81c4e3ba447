//! Verifications with one deliberate error each: the cases find them.

mod altered;

use altered::{conditions, differences, shape, Altered};
use cases::{Call, Calls, Case, Kind, Reading};
use reading::{lanes_of_build, lanes_of_change, solve_lane, solve_lanes, Shape};

/// A verification written anew over flat slices. Left open are the tensor that the given one is held
/// against, where it is looked at, when two numbers differ, which of these is told, and how its place
/// and its mask are counted.
struct Anew {
    fresh: fn(&Case) -> Vec<f64>,
    looked_at: fn(&Shape, usize) -> bool,
    differs: fn(f64, f64) -> bool,
    told: fn(&[usize]) -> Option<&usize>,
    place: fn(&Shape, usize) -> Vec<usize>,
    mask: fn(&Shape, usize) -> usize,
}

const RIGHT: Anew = Anew {
    fresh: by_lanes,
    looked_at: |_, _| true,
    differs: |given, fresh| given.to_bits() != fresh.to_bits(),
    told: |differing| differing.first(),
    place: |shape, number| shape.place(number),
    mask: |_, mask| mask,
};

/// The tensor of a case with its samples alone; nothing else in it is a number.
fn samples_alone(given: &Case) -> Vec<f64> {
    let masks = shape(given).masks();
    let mut tensor = given.argument("tensor").floats().to_vec();
    for (at, number) in tensor.iter_mut().enumerate() {
        if at % masks != 0 {
            *number = f64::NAN;
        }
    }
    tensor
}

/// The lanes of a build solved one after the other.
fn by_lanes(given: &Case) -> Vec<f64> {
    let (shape, knots) = (shape(given), given.argument("knots").floats());
    let mut tensor = samples_alone(given);
    let lanes = lanes_of_build(&shape);
    solve_lanes(&shape, &conditions(given), knots, &mut tensor, &lanes);
    tensor
}

impl Anew {
    /// The place, and what else is found, of a tensor that is accepted.
    fn answer(&self, given: &Case) -> ([usize; 4], [usize; 3]) {
        let (shape, tensor) = (shape(given), given.argument("tensor").floats());
        let fresh = (self.fresh)(given);
        let mut differing: Vec<usize> = (0..tensor.len()).collect();
        differing.retain(|at| (self.looked_at)(&shape, *at));
        differing.retain(|at| (self.differs)(tensor[*at], fresh[*at]));
        let Some(told) = (self.told)(&differing) else {
            return ([0; 4], [1, 0, 0]);
        };
        let mut place = [0; 4];
        let indices = (self.place)(&shape, told / shape.masks());
        place[..indices.len()].copy_from_slice(&indices);
        let mask = (self.mask)(&shape, told % shape.masks());
        (place, [0, mask, differing.len()])
    }
}

impl Calls for Anew {
    fn run(&self, case: &mut Case) -> Option<usize> {
        let given = case.clone();
        let refusal = Reading.run(case)?;
        if refusal == 0 {
            let (place, found) = self.answer(&given);
            let slots = case.argument_mut("place").numbers_mut();
            slots.copy_from_slice(&place);
            let slots = case.argument_mut("found").numbers_mut();
            slots.copy_from_slice(&found);
        }
        Some(refusal)
    }
}

fn is_found(wrong: &Anew) -> bool {
    differences(wrong, Kind::Verify) > 0
}

#[test]
fn written_anew_it_is_the_same() {
    assert_eq!(differences(&RIGHT, Kind::Verify), 0);
}

#[test]
fn values_in_place_of_bits_are_found() {
    assert!(is_found(&Anew {
        differs: |given, fresh| given != fresh,
        ..RIGHT
    }));
}

#[test]
fn a_tolerance_of_one_unit_is_found() {
    assert!(is_found(&Anew {
        differs: |given, fresh| given.to_bits().abs_diff(fresh.to_bits()) > 1,
        ..RIGHT
    }));
}

#[test]
fn a_last_number_that_is_not_looked_at_is_found() {
    assert!(is_found(&Anew {
        looked_at: |shape, at| at != shape.tensor_length() - 1,
        ..RIGHT
    }));
}

#[test]
fn as_many_numbers_as_samples_are_found() {
    assert!(is_found(&Anew {
        looked_at: |shape, at| at < shape.samples_length(),
        ..RIGHT
    }));
}

/// The slopes along one axis alone; and all but those at the largest mask.
#[test]
fn masks_that_are_not_looked_at_are_found() {
    assert!(is_found(&Anew {
        looked_at: |shape, at| (at % shape.masks()).is_power_of_two(),
        ..RIGHT
    }));
    assert!(is_found(&Anew {
        looked_at: |shape, at| at % shape.masks() != shape.masks() - 1,
        ..RIGHT
    }));
}

/// Places at an end of an axis alone; and all but these.
#[test]
fn places_that_are_not_looked_at_are_found() {
    fn on_the_rim(shape: &Shape, at: usize) -> bool {
        let place = shape.place(at / shape.masks());
        let mut axes = place.iter().zip(shape.points());
        axes.any(|(index, points)| *index == 0 || *index == points - 1)
    }
    assert!(is_found(&Anew {
        looked_at: on_the_rim,
        ..RIGHT
    }));
    assert!(is_found(&Anew {
        looked_at: |shape, at| !on_the_rim(shape, at),
        ..RIGHT
    }));
}

#[test]
fn the_last_that_differs_in_place_of_the_first_is_found() {
    assert!(is_found(&Anew {
        told: |differing| differing.last(),
        ..RIGHT
    }));
}

#[test]
fn a_place_counted_with_the_first_axis_fastest_is_found() {
    assert!(is_found(&Anew {
        place: |shape, number| {
            let mut rest = number;
            let indices = shape.points().iter().map(|points| {
                let index = rest % points;
                rest /= points;
                index
            });
            indices.collect()
        },
        ..RIGHT
    }));
}

/// Behind the axes in use the number of the place.
#[test]
fn an_index_past_the_axes_in_use_is_found() {
    assert!(is_found(&Anew {
        place: |shape, number| {
            let mut place = shape.place(number);
            place.resize(4, number);
            place
        },
        ..RIGHT
    }));
}

#[test]
fn a_mask_with_the_first_axis_highest_is_found() {
    assert!(is_found(&Anew {
        mask: |shape, mask| {
            let axes = 0..shape.axes();
            axes.fold(0, |turned, axis| turned << 1 | mask >> axis & 1)
        },
        ..RIGHT
    }));
}

/// The lanes of a change at the first place: what no such change renews is held against itself.
#[test]
fn a_tensor_that_is_renewed_at_one_place_is_found() {
    assert!(is_found(&Anew {
        fresh: |given| {
            let (shape, knots) = (shape(given), given.argument("knots").floats());
            let mut tensor = given.argument("tensor").floats().to_vec();
            let lanes = lanes_of_change(&shape, &vec![0; shape.axes()]);
            solve_lanes(&shape, &conditions(given), knots, &mut tensor, &lanes);
            tensor
        },
        ..RIGHT
    }));
}

#[test]
fn ends_that_keep_their_values_at_every_mask_are_found() {
    assert!(is_found(&Anew {
        fresh: |given| {
            let (shape, conditions) = (shape(given), conditions(given));
            let knots = given.argument("knots").floats();
            let mut tensor = samples_alone(given);
            for lane in lanes_of_build(&shape) {
                solve_lane(&shape, &conditions[lane.axis], knots, &mut tensor, &lane);
            }
            tensor
        },
        ..RIGHT
    }));
}

/// Calls every tensor whole, or none.
#[test]
fn one_answer_for_all_is_found() {
    assert!(is_found(&Anew {
        looked_at: |_, _| false,
        ..RIGHT
    }));
    assert!(is_found(&Anew {
        differs: |_, _| true,
        ..RIGHT
    }));
}

/// Also at the end of a list of changes.
#[test]
fn a_changed_tensor_that_is_not_called_whole_is_found() {
    let wrong = Altered {
        call: Call::Verify,
        alter: |_, answered| answered.argument_mut("found").numbers_mut()[0] = 0,
    };
    assert!(differences(&wrong, Kind::ChangeList) > 0);
}

/// The count of places at which something differs.
#[test]
fn a_count_of_places_is_found() {
    let wrong = Altered {
        call: Call::Verify,
        alter: |given, answered| {
            let (fresh, masks) = (by_lanes(given), shape(given).masks());
            let places = given.argument("tensor").floats().chunks(masks);
            let stale = places.zip(fresh.chunks(masks)).filter(|(given, fresh)| {
                let mut pairs = given.iter().zip(*fresh);
                pairs.any(|(given, fresh)| given.to_bits() != fresh.to_bits())
            });
            answered.argument_mut("found").numbers_mut()[2] = stale.count();
        },
    };
    assert!(differences(&wrong, Kind::Verify) > 0);
}

#[test]
fn a_tensor_repaired_in_passing_is_found() {
    let wrong = Altered {
        call: Call::Verify,
        alter: |given, answered| {
            let tensor = answered.argument_mut("tensor").floats_mut();
            tensor.copy_from_slice(&by_lanes(given));
        },
    };
    assert!(differences(&wrong, Kind::Verify) > 0);
}

/// Looks for what is no finite number among the samples alone.
struct DerivativesOfAnySort;

impl Calls for DerivativesOfAnySort {
    fn run(&self, case: &mut Case) -> Option<usize> {
        let mut mended = case.clone();
        for number in mended.argument_mut("tensor").floats_mut().iter_mut() {
            if !number.is_finite() {
                *number = 0.0;
            }
        }
        let tensor = case.argument("tensor").clone();
        let masks = 1 << case.argument("axes").number().min(4);
        let mut samples = tensor.floats().iter().step_by(masks);
        if samples.all(|sample| sample.is_finite()) {
            *case = mended;
        }
        let refusal = Reading.run(case);
        *case.argument_mut("tensor") = tensor;
        refusal
    }
}

#[test]
fn derivatives_that_are_no_numbers_are_found() {
    assert!(differences(&DerivativesOfAnySort, Kind::Verify) > 0);
}

/// Leaves slots as they were after a refusal.
struct SlotsLeft {
    names: &'static [&'static str],
}

impl Calls for SlotsLeft {
    fn run(&self, case: &mut Case) -> Option<usize> {
        let given = case.clone();
        let refusal = Reading.run(case)?;
        if refusal != 0 {
            for name in self.names {
                *case.argument_mut(name) = given.argument(name).clone();
            }
        }
        Some(refusal)
    }
}

#[test]
fn slots_that_a_refusal_leaves_are_found() {
    for names in [&["place"][..], &["found"], &["place", "found"]] {
        assert!(differences(&SlotsLeft { names }, Kind::Verify) > 0);
    }
}

/// Writes the slot that has its length beside one that has not.
struct OneSlotAlone;

impl Calls for OneSlotAlone {
    fn run(&self, case: &mut Case) -> Option<usize> {
        let refusal = Reading.run(case)?;
        for (name, length) in [("place", 4), ("found", 3)] {
            let slot = case.argument_mut(name).numbers_mut();
            if refusal != 0 && slot.len() == length {
                slot.fill(0);
            }
        }
        Some(refusal)
    }
}

#[test]
fn a_slot_that_is_written_alone_is_found() {
    assert!(differences(&OneSlotAlone, Kind::Verify) > 0);
}
