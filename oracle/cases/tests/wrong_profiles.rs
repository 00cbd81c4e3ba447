//! Mistakes in the profile of even axes, each of which some generated case finds.

use cases::{compare_all, Call, Calls, Case, Kind, Plan, Reading};

/// The reading, with a mistake in what it answers of a profile: the refusal, and the slot of two that it tells.
struct Wrong(fn(usize, &mut [usize]) -> usize);

impl Calls for Wrong {
    fn run(&self, case: &mut Case) -> Option<usize> {
        let refusal = Reading.run(case)?;
        if case.call != Call::EvenProfile {
            return Some(refusal);
        }
        Some((self.0)(refusal, case.argument_mut("told").numbers_mut()))
    }
}

fn differences(mistake: fn(usize, &mut [usize]) -> usize, kind: Kind) -> u64 {
    let plan = Plan::of_kind(7, kind, 2000);
    compare_all(&Wrong(mistake), &plan).total().differences
}

/// The place is told one further, where it is told.
fn next_place(refusal: usize, told: &mut [usize]) -> usize {
    if matches!(refusal, 7 | 8 | 21) {
        told[1] += 1;
    }
    refusal
}

/// Always the first axis.
fn first_axis(refusal: usize, told: &mut [usize]) -> usize {
    if told.len() == 2 {
        told[0] = 0;
    }
    refusal
}

/// An axis that is not even is accepted, with nothing told.
fn uneven_accepted(refusal: usize, told: &mut [usize]) -> usize {
    if refusal != 21 {
        return refusal;
    }
    told.fill(0);
    0
}

/// Knots that do not rise are refused by 21.
fn falling_as_uneven(refusal: usize, _: &mut [usize]) -> usize {
    match refusal {
        8 => 21,
        other => other,
    }
}

#[test]
fn no_mistake_is_no_difference() {
    for kind in [Kind::EvenProfile, Kind::ProfiledDirect] {
        assert_eq!(differences(|refusal, _| refusal, kind), 0);
    }
}

#[test]
fn every_mistake_is_found() {
    for mistake in [next_place, first_axis, uneven_accepted, falling_as_uneven] {
        assert!(differences(mistake, Kind::EvenProfile) > 0);
    }
}
