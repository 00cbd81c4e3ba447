//! Programs that do next to nothing: the cases find them.

mod altered;

use altered::{differences, store_the_sample_only, Altered};
use cases::{Call, Calls, Case, Kind, Reading, KINDS};
use std::cell::Cell;

/// Refuses everything by one number.
struct RefusesAll;

impl Calls for RefusesAll {
    fn run(&self, _: &mut Case) -> Option<usize> {
        Some(4)
    }
}

#[test]
fn a_program_that_refuses_all_is_found() {
    for kind in KINDS {
        assert!(differences(&RefusesAll, kind) > 0, "{}", kind.name());
    }
}

#[test]
fn a_constant_answer_is_found() {
    let wrong = Altered {
        call: Call::Query,
        alter: |_, answered| answered.argument_mut("value").floats_mut()[0] = 0.0,
    };
    assert!(differences(&wrong, Kind::Query) > 0);
}

#[test]
fn a_change_that_stores_nothing_is_found() {
    let wrong = Altered {
        call: Call::Change,
        alter: |given, answered| {
            let tensor = answered.argument_mut("tensor").floats_mut();
            tensor.copy_from_slice(given.argument("tensor").floats());
        },
    };
    assert!(differences(&wrong, Kind::Change) > 0);
}

/// Solves lanes at the first change; afterwards it stores the sample only.
struct RefreshesAtFirst {
    changes: Cell<usize>,
}

impl Calls for RefreshesAtFirst {
    fn run(&self, case: &mut Case) -> Option<usize> {
        let given = case.clone();
        let refusal = Reading.run(case)?;
        if refusal == 0 && case.call == Call::Change {
            let before = self.changes.replace(self.changes.get() + 1);
            if before > 0 {
                store_the_sample_only(&given, case);
            }
        }
        Some(refusal)
    }
}

#[test]
fn a_program_that_refreshes_at_first_only_is_found() {
    let wrong = RefreshesAtFirst {
        changes: Cell::new(0),
    };
    assert!(differences(&wrong, Kind::ChangeList) > 0);
}

#[test]
fn a_change_that_only_stores_the_sample_is_found() {
    let wrong = Altered {
        call: Call::Change,
        alter: store_the_sample_only,
    };
    assert!(differences(&wrong, Kind::Change) > 0);
}

#[test]
fn an_invented_lane_count_is_found() {
    let wrong = Altered {
        call: Call::Change,
        alter: |_, answered| answered.argument_mut("lanes").numbers_mut()[0] += 1,
    };
    assert!(differences(&wrong, Kind::Change) > 0);
}
