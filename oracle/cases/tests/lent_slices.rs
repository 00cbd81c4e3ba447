//! Programs that answer rightly and leave what they were lent in a wrong state:
//! the cases find them.

mod altered;

use altered::{differences, Altered};
use cases::{Argument, Call, Calls, Case, Kind, Reading};

#[test]
fn scratch_left_behind_is_found() {
    for (call, kind) in [
        (Call::Moments, Kind::Moments),
        (Call::Build, Kind::Build),
        (Call::Change, Kind::Change),
        (Call::Verify, Kind::Verify),
    ] {
        let wrong = Altered {
            call,
            alter: |given, answered| {
                // What a call leaves that clears only what it is bound to use.
                let given = given.argument("scratch").floats();
                let scratch = answered.argument_mut("scratch").floats_mut();
                let last = given.len() - 1;
                scratch[last] = given[last];
            },
        };
        assert!(differences(&wrong, kind) > 0);
    }
}

/// Writes past the end of a slice, on its guard.
struct BehindTheSlice;

impl Calls for BehindTheSlice {
    fn run(&self, case: &mut Case) -> Option<usize> {
        let refusal = Reading.run(case)?;
        if let Argument::Floats(tensor) = case.argument_mut("tensor") {
            let length = tensor.slice().len();
            tensor.resize(length + 1);
        }
        Some(refusal)
    }
}

#[test]
fn a_number_behind_a_slice_is_found() {
    assert!(differences(&BehindTheSlice, Kind::Build) > 0);
}

/// Touches an output, or clears scratch, on a refusal.
struct Touching {
    name: &'static str,
}

impl Calls for Touching {
    fn run(&self, case: &mut Case) -> Option<usize> {
        let refusal = Reading.run(case)?;
        let slots = case.argument_mut(self.name).floats_mut();
        if refusal != 0 && !slots.is_empty() {
            slots[0] = 0.0;
        }
        Some(refusal)
    }
}

#[test]
fn a_refusal_that_touches_what_it_was_lent_is_found() {
    for name in ["tensor", "scratch", "samples"] {
        assert!(differences(&Touching { name }, Kind::Build) > 0, "{name}");
    }
    for name in ["tensor", "scratch"] {
        assert!(differences(&Touching { name }, Kind::Verify) > 0, "{name}");
    }
}
