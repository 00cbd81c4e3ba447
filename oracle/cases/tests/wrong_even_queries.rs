//! Queries in the profile of even axes with one deliberate error each: the cases find them.

mod altered;

use altered::differences;
use altered::queries::{evaluated, Given};
use cases::{Call, Calls, Case, Kind, Reading};

/// A query written anew. Left open are the cell of a point, the first interval that is off,
/// which axis is told first, the order of two refusals, and which point the cell is of.
struct Anew {
    cell: fn(&[f64], f64) -> usize,
    uneven: fn(&[f64]) -> Option<usize>,
    highest_axis: bool,
    outside_first: bool,
    cell_as_given: bool,
}

const RIGHT: Anew = Anew {
    cell: direct,
    uneven: |knots| first_beyond(knots, (knots[1] - knots[0]).abs() * 2f64.powi(-42)),
    highest_axis: false,
    outside_first: false,
    cell_as_given: false,
};

fn direct(knots: &[f64], point: f64) -> usize {
    let quotient = (point - knots[0]) / (knots[1] - knots[0]);
    let fits = (0.0..18_446_744_073_709_551_616.0).contains(&quotient);
    let cell = if fits { quotient as u64 as usize } else { 0 };
    cell.min(knots.len() - 2)
}

/// The first interval whose length differs from that of the first by more than a tolerance.
fn first_beyond(knots: &[f64], tolerance: f64) -> Option<usize> {
    let step = knots[1] - knots[0];
    let off = |at: &usize| {
        let spacing = knots[at + 1] - knots[*at];
        (spacing - step).abs() > tolerance
    };
    (1..knots.len() - 1).find(off)
}

/// The refusal, the value, the labels, and what is told of an axis that is not even.
type Answer = (usize, f64, [usize; 4], [usize; 2]);

impl Anew {
    /// The answer where the lengths, the modes and the knots are right.
    fn answer(&self, given: &Given) -> Answer {
        let refused = |number, told| (number, 0.0, [0; 4], told);
        let axes = given.modes.iter().zip(&given.knots).zip(given.coordinates);
        let point = axes.map(|((mode, knots), point)| evaluated(*mode, knots, *point));
        let point: Option<Vec<f64>> = point.collect();
        if point.is_none() && self.outside_first {
            return refused(18, [0; 2]);
        }
        if let Some(told) = self.told(given) {
            return refused(21, told);
        }
        let Some(point) = point else {
            return refused(18, [0; 2]);
        };
        let located = if self.cell_as_given {
            given.coordinates
        } else {
            &point
        };
        let axes = given.knots.iter().zip(located);
        let cells: Vec<usize> = axes.map(|(knots, at)| (self.cell)(knots, *at)).collect();
        let value = given.value_in(&cells, &point);
        if !value.is_finite() {
            return refused(10, [0; 2]);
        }
        let mut labels = [0; 4];
        labels[..cells.len()].copy_from_slice(&cells);
        (0, value, labels, [0; 2])
    }

    /// The axis that is told, and its interval.
    fn told(&self, given: &Given) -> Option<[usize; 2]> {
        let axes = given.knots.iter().enumerate();
        let mut uneven =
            axes.filter_map(|(axis, knots)| (self.uneven)(knots).map(|interval| [axis, interval]));
        if self.highest_axis {
            uneven.last()
        } else {
            uneven.next()
        }
    }
}

impl Calls for Anew {
    fn run(&self, case: &mut Case) -> Option<usize> {
        let given = case.clone();
        let refusal = Reading.run(case)?;
        if case.call != Call::EvenQuery || matches!(refusal, 1..=4 | 7 | 8 | 22) {
            return Some(refusal);
        }
        let (refusal, value, labels, told) = self.answer(&Given::of(&given));
        case.argument_mut("value").floats_mut()[0] = value;
        let slots = case.argument_mut("labels").numbers_mut();
        slots.copy_from_slice(&labels);
        let slots = case.argument_mut("uneven").numbers_mut();
        slots.copy_from_slice(&told);
        Some(refusal)
    }
}

fn is_found(wrong: &Anew) -> bool {
    differences(wrong, Kind::EvenQuery) > 0
}

#[test]
fn written_anew_it_is_the_same() {
    assert_eq!(differences(&RIGHT, Kind::EvenQuery), 0);
}

#[test]
fn the_searched_cell_is_found() {
    assert!(is_found(&Anew {
        cell: |knots, point| ninterp_unchanged::locate_lower_index(knots.into(), &point),
        ..RIGHT
    }));
}

#[test]
fn the_last_cell_far_above_is_found() {
    assert!(is_found(&Anew {
        cell: |knots, point| {
            let quotient = (point - knots[0]) / (knots[1] - knots[0]);
            (quotient as usize).min(knots.len() - 2)
        },
        ..RIGHT
    }));
}

#[test]
fn a_tolerance_of_1023_units_is_found() {
    assert!(is_found(&Anew {
        uneven: |knots| first_beyond(knots, (knots[1] - knots[0]).abs() * (1023.0 * f64::EPSILON)),
        ..RIGHT
    }));
}

/// The same but for tiny steps.
#[test]
fn doublings_after_the_product_are_found() {
    assert!(is_found(&Anew {
        uneven: |knots| first_beyond(knots, (knots[1] - knots[0]).abs() * f64::EPSILON * 1024.0),
        ..RIGHT
    }));
}

#[test]
fn a_tolerance_that_is_uneven_itself_is_found() {
    assert!(is_found(&Anew {
        uneven: |knots| {
            let tolerance = (knots[1] - knots[0]).abs() * 2f64.powi(-42);
            first_beyond(knots, tolerance.next_down())
        },
        ..RIGHT
    }));
}

#[test]
fn narrower_intervals_that_are_not_looked_at_are_found() {
    assert!(is_found(&Anew {
        uneven: |knots| {
            let step = knots[1] - knots[0];
            let wider =
                |at: &usize| knots[at + 1] - knots[*at] > step + step.abs() * 2f64.powi(-42);
            (1..knots.len() - 1).find(wider)
        },
        ..RIGHT
    }));
}

#[test]
fn the_interval_before_the_failing_one_is_found() {
    assert!(is_found(&Anew {
        uneven: |knots| (RIGHT.uneven)(knots).map(|interval| interval - 1),
        ..RIGHT
    }));
}

#[test]
fn the_highest_axis_told_first_is_found() {
    assert!(is_found(&Anew {
        highest_axis: true,
        ..RIGHT
    }));
}

#[test]
fn a_point_outside_refused_before_uneven_knots_is_found() {
    assert!(is_found(&Anew {
        outside_first: true,
        ..RIGHT
    }));
}

#[test]
fn hold_after_the_cell_was_found_is_found() {
    assert!(is_found(&Anew {
        cell_as_given: true,
        ..RIGHT
    }));
}

/// What is told of an uneven axis is 0 after every other refusal.
struct Leaves;

impl Calls for Leaves {
    fn run(&self, case: &mut Case) -> Option<usize> {
        let given = case.clone();
        let refusal = Reading.run(case)?;
        if refusal != 21 {
            *case.argument_mut("uneven") = given.argument("uneven").clone();
        }
        Some(refusal)
    }
}

#[test]
fn a_slot_that_is_left_as_it_was_is_found() {
    assert!(differences(&Leaves, Kind::EvenQuery) > 0);
}
