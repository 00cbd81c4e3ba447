//! Queries with one deliberate error each, in the search, in what is refused or in the modes:
//! the cases find them.

mod altered;

use altered::differences;
use altered::queries::{evaluated, Given};
use cases::{Call, Calls, Case, Kind, Reading};
use reading::{EXTEND, HOLD, REFUSE};

/// A query that is written anew over flat places. Left open are its search, its test of a cell,
/// the coordinate that is evaluated, or none where the one that is given is refused, and the
/// order of its refusals.
struct Anew {
    search: fn(&[f64], f64) -> usize,
    is_cell: fn(&[f64], usize) -> bool,
    evaluated: fn(u8, &[f64], f64) -> Option<f64>,
    order: [usize; 4],
}

const RIGHT: Anew = Anew {
    search: by_halves,
    is_cell: rises,
    evaluated,
    order: [7, 8, 18, 10],
};

/// The search as the Rust does it, in no more than so many halvings.
fn in_halvings(knots: &[f64], point: f64, most: usize) -> usize {
    let last = knots.len() - 1;
    if point < knots[0] {
        return 0;
    }
    if point >= knots[last] {
        return last - 1;
    }
    let (mut low, mut high) = (0, last);
    for _ in 0..most {
        let middle = low + (high - low) / 2;
        if low < high && knots[middle] >= point {
            high = middle;
        } else if low < high {
            low = middle + 1;
        }
    }
    let found = if low > 0 && knots[low] >= point {
        low - 1
    } else {
        low
    };
    found.min(last - 1)
}

fn by_halves(knots: &[f64], point: f64) -> usize {
    in_halvings(knots, point, 8)
}

fn rises(knots: &[f64], cell: usize) -> bool {
    let (lower, upper) = (knots[cell], knots[cell + 1]);
    lower.is_finite() && upper.is_finite() && lower < upper && (upper - lower).is_finite()
}

impl Anew {
    /// The refusal, the value and the labels where the lengths and the modes are right.
    fn answer(&self, given: &Given) -> (usize, f64, [usize; 4]) {
        let axes = given.knots.iter().zip(given.coordinates);
        let cells = axes.map(|(knots, point)| (self.search)(knots, *point));
        let cells: Vec<usize> = cells.collect();
        let mut labels = [0; 4];
        labels[..cells.len()].copy_from_slice(&cells);
        let value = self.value(given, &cells);
        let applies = |number: &usize| match number {
            7 => !given.coordinates.iter().all(|point| point.is_finite()),
            8 => {
                let mut axes = given.knots.iter().zip(&cells);
                !axes.all(|(knots, cell)| (self.is_cell)(knots, *cell))
            }
            18 => self.point(given).is_none(),
            _ => !value.is_finite(),
        };
        match self.order.iter().find(|number| applies(number)) {
            Some(refusal) => (*refusal, 0.0, [0; 4]),
            None => (0, value, labels),
        }
    }

    /// The coordinates that are evaluated.
    fn point(&self, given: &Given) -> Option<Vec<f64>> {
        let axes = given.modes.iter().zip(&given.knots).zip(given.coordinates);
        axes.map(|((mode, knots), point)| (self.evaluated)(*mode, knots, *point))
            .collect()
    }

    /// The value in a cell; where a coordinate is refused, that of the point as it is given.
    fn value(&self, given: &Given, cells: &[usize]) -> f64 {
        let point = self.point(given).unwrap_or(given.coordinates.to_vec());
        given.value_in(cells, &point)
    }
}

impl Calls for Anew {
    fn run(&self, case: &mut Case) -> Option<usize> {
        let given = case.clone();
        let refusal = Reading.run(case)?;
        let knots_refused = case.call == Call::Query && matches!(refusal, 7 | 8);
        let is_query = matches!(case.call, Call::Query | Call::QuickQuery);
        if !is_query || knots_refused || matches!(refusal, 1..=4 | 22) {
            return Some(refusal);
        }
        let (refusal, value, labels) = self.answer(&Given::of(&given));
        case.argument_mut("value").floats_mut()[0] = value;
        let slots = case.argument_mut("labels").numbers_mut();
        slots.copy_from_slice(&labels);
        Some(refusal)
    }
}

/// Whether the quick queries find an error.
fn is_found(wrong: &Anew) -> bool {
    differences(wrong, Kind::QuickQuery) > 0
}

/// Whether full queries find an error, and quick ones too.
fn is_found_by_both(wrong: &Anew) -> bool {
    differences(wrong, Kind::Query) > 0 && is_found(wrong)
}

/// The stand-in for ndarray, too, puts every number where flat places say.
#[test]
fn written_anew_it_is_the_same() {
    assert_eq!(differences(&RIGHT, Kind::Query), 0);
    assert_eq!(differences(&RIGHT, Kind::QuickQuery), 0);
    assert_eq!(differences(&RIGHT, Kind::QuickBesideFull), 0);
}

#[test]
fn six_halvings_are_found() {
    assert!(is_found(&Anew {
        search: |knots, point| in_halvings(knots, point, 6),
        ..RIGHT
    }));
}

/// The eighth halving asks of the last knot but one what the step back asks again.
#[test]
fn seven_halvings_find_the_same_cells() {
    let seven = Anew {
        search: |knots, point| in_halvings(knots, point, 7),
        ..RIGHT
    };
    assert_eq!(differences(&seven, Kind::QuickQuery), 0);
    assert_eq!(differences(&seven, Kind::QuickBesideFull), 0);
}

#[test]
fn a_scan_in_place_of_the_search_is_found() {
    assert!(is_found(&Anew {
        search: |knots, point| {
            let above = knots[1..].iter().position(|knot| *knot >= point);
            above.unwrap_or(knots.len() - 2)
        },
        ..RIGHT
    }));
}

#[test]
fn the_cell_after_a_knot_is_found() {
    assert!(is_found(&Anew {
        search: |knots, point| {
            let cell = by_halves(knots, point);
            if point == knots[cell + 1] && cell + 2 < knots.len() {
                cell + 1
            } else {
                cell
            }
        },
        ..RIGHT
    }));
}

#[test]
fn a_falling_cell_that_is_accepted_is_found() {
    assert!(is_found(&Anew {
        is_cell: |knots, cell| knots[cell].is_finite() && knots[cell + 1].is_finite(),
        ..RIGHT
    }));
}

#[test]
fn a_step_that_overflows_and_is_accepted_is_found() {
    assert!(is_found(&Anew {
        is_cell: |knots, cell| {
            let (lower, upper) = (knots[cell], knots[cell + 1]);
            lower.is_finite() && upper.is_finite() && lower < upper
        },
        ..RIGHT
    }));
}

#[test]
fn a_refusal_for_knots_off_the_path_is_found() {
    assert!(is_found(&Anew {
        is_cell: |knots, cell| rises(knots, cell) && knots.is_sorted(),
        ..RIGHT
    }));
}

#[test]
fn knots_looked_at_before_coordinates_are_found() {
    assert!(is_found(&Anew {
        order: [8, 7, 18, 10],
        ..RIGHT
    }));
}

#[test]
fn a_point_outside_that_is_refused_before_its_knots_is_found() {
    assert!(is_found(&Anew {
        order: [7, 18, 8, 10],
        ..RIGHT
    }));
}

#[test]
fn a_point_outside_that_is_refused_after_the_outcome_is_found() {
    assert!(is_found_by_both(&Anew {
        order: [7, 8, 10, 18],
        ..RIGHT
    }));
}

#[test]
fn an_end_knot_taken_as_outside_is_found() {
    assert!(is_found_by_both(&Anew {
        evaluated: |mode, knots, point| {
            let at_an_end = point == knots[0] || point == knots[knots.len() - 1];
            if mode == REFUSE && at_an_end {
                return None;
            }
            evaluated(mode, knots, point)
        },
        ..RIGHT
    }));
}

#[test]
fn a_zero_taken_as_outside_at_a_zero_of_the_other_sign_is_found() {
    assert!(is_found_by_both(&Anew {
        evaluated: |mode, knots, point| {
            let ends = [knots[0], knots[knots.len() - 1]];
            let other_zero = |end: &f64| point == *end && point.to_bits() != end.to_bits();
            if mode == REFUSE && ends.iter().any(other_zero) {
                return None;
            }
            evaluated(mode, knots, point)
        },
        ..RIGHT
    }));
}

#[test]
fn a_coordinate_held_at_the_other_end_is_found() {
    assert!(is_found_by_both(&Anew {
        evaluated: |mode, knots, point| match evaluated(mode, knots, point) {
            Some(held) if held != point => Some(knots[0] + knots[knots.len() - 1] - held),
            held => held,
        },
        ..RIGHT
    }));
}

#[test]
fn extend_that_holds_is_found() {
    assert!(is_found_by_both(&Anew {
        evaluated: |mode, knots, point| match mode {
            EXTEND => evaluated(HOLD, knots, point),
            _ => evaluated(mode, knots, point),
        },
        ..RIGHT
    }));
}

/// On knots where a point is below the first and above the last.
#[test]
fn above_looked_at_before_below_is_found() {
    assert!(is_found(&Anew {
        evaluated: |mode, knots, point| {
            let last = knots[knots.len() - 1];
            if mode == HOLD && point > last {
                return Some(last);
            }
            evaluated(mode, knots, point)
        },
        ..RIGHT
    }));
}

/// The cell of the end knot in place of that of the point as it is given.
#[test]
fn a_cell_located_anew_in_hold_is_found() {
    let wrong = LocatedAnew;
    assert!(differences(&wrong, Kind::QuickQuery) > 0);
    assert_eq!(differences(&wrong, Kind::Query), 0);
}

/// Asks in hold as one would in extend at the end knot, which is another cell on some knots
/// that do not rise.
struct LocatedAnew;

impl Calls for LocatedAnew {
    fn run(&self, case: &mut Case) -> Option<usize> {
        let mut replaced = case.clone();
        let refusal = Reading.run(case)?;
        if refusal != 0 {
            return Some(refusal);
        }
        let given = Given::of(&replaced);
        let axes = given.modes.iter().zip(&given.knots).zip(given.coordinates);
        let point = axes.map(|((mode, knots), point)| evaluated(*mode, knots, *point));
        let point: Option<Vec<f64>> = point.collect();
        let point = point.expect("what is accepted is not refused by 18");
        let slots = replaced.argument_mut("coordinates").floats_mut();
        slots.copy_from_slice(&point);
        let refusal = Reading.run(&mut replaced)?;
        let coordinates = case.argument("coordinates").floats().to_vec();
        let slots = replaced.argument_mut("coordinates").floats_mut();
        slots.copy_from_slice(&coordinates);
        *case = replaced;
        Some(refusal)
    }
}
