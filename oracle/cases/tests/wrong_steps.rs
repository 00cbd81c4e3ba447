//! Copies of the calls of steps with one deliberate error each: the cases find them.

mod altered;

use altered::{differences, shape, Altered};
use cases::{Call, Case, Kind};

/// What a call on one axis was given.
fn line(given: &Case) -> (&[f64], f64) {
    let knots = given.argument("knots").floats();
    (knots, given.argument("point").float())
}

/// Alters the index of steps in a direction, where the point lies so among the knots.
fn alter_index(
    given: &Case,
    answered: &mut Case,
    direction: usize,
    lies: fn(&[f64], f64) -> bool,
    index: fn(&[f64]) -> usize,
) {
    let (knots, point) = line(given);
    if given.argument("direction").number() == direction && lies(knots, point) {
        answered.argument_mut("index").numbers_mut()[0] = index(knots);
    }
}

fn last(knots: &[f64]) -> f64 {
    knots[knots.len() - 1]
}

fn is_found(alter: fn(&Case, &mut Case)) -> bool {
    let wrong = Altered {
        call: Call::LocateStepIndex,
        alter,
    };
    differences(&wrong, Kind::LocateStepIndex) > 0
}

#[test]
fn a_mended_corner_is_found() {
    assert!(is_found(|given, answered| {
        alter_index(given, answered, 1, |knots, p| p < knots[0], |_| 0)
    }));
    assert!(is_found(|given, answered| {
        let above = |knots: &[f64], p: f64| p > last(knots);
        alter_index(given, answered, 0, above, |knots| knots.len() - 1)
    }));
}

#[test]
fn an_end_knot_that_is_stepped_over_is_found() {
    assert!(is_found(|given, answered| {
        alter_index(given, answered, 1, |knots, p| p == knots[0], |_| 1)
    }));
    assert!(is_found(|given, answered| {
        let at_last = |knots: &[f64], p: f64| p == last(knots);
        alter_index(given, answered, 0, at_last, |knots| knots.len() - 2)
    }));
}

/// The sample at the place where the directions of two axes are exchanged.
#[test]
fn exchanged_directions_are_found() {
    let wrong = Altered {
        call: Call::Stepped,
        alter: |given, answered| {
            if given.argument("axes").number() < 2 {
                return;
            }
            let mut exchanged = given.clone();
            exchanged.argument_mut("directions").bytes_mut().swap(0, 1);
            cases::Calls::run(&cases::Reading, &mut exchanged);
            *answered.argument_mut("value") = exchanged.argument("value").clone();
            *answered.argument_mut("indices") = exchanged.argument("indices").clone();
        },
    };
    assert!(differences(&wrong, Kind::Stepped) > 0);
}

/// A sample of the neighbouring place, with the right indices.
#[test]
fn another_sample_is_found() {
    let wrong = Altered {
        call: Call::Stepped,
        alter: |given, answered| {
            let shape = shape(given);
            let place = &answered.argument("indices").numbers()[..shape.axes()];
            let number = (shape.number(place) + 1) % shape.samples_length();
            let sample = given.argument("samples").floats()[number];
            answered.argument_mut("value").floats_mut()[0] = sample;
        },
    };
    assert!(differences(&wrong, Kind::Stepped) > 0);
}

/// The lower index of the cell where the point equals its upper knot.
#[test]
fn a_lower_index_for_the_upper_knot_is_found() {
    let wrong = Altered {
        call: Call::ExactIndex,
        alter: |given, answered| {
            let found = answered.argument_mut("found").numbers_mut();
            if found[0] == 1 {
                found[1] = given.argument("lower").number();
            }
        },
    };
    assert!(differences(&wrong, Kind::ExactIndex) > 0);
}

/// A fraction by the reciprocal of the width.
#[test]
fn a_fraction_by_a_reciprocal_is_found() {
    let wrong = Altered {
        call: Call::LocateAxis,
        alter: |given, answered| {
            let (knots, point) = line(given);
            let location = answered.argument("location").numbers();
            if let [1, lower] = *location {
                let width = knots[lower + 1] - knots[lower];
                let fraction = (point - knots[lower]) * (1.0 / width);
                answered.argument_mut("fraction").floats_mut()[0] = fraction;
            }
        },
    };
    assert!(differences(&wrong, Kind::LocateAxis) > 0);
}
