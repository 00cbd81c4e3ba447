//! The reading with altered answers, and how often the cases find it different.

// Each file of tests uses its own part of this.
#![allow(dead_code)]

pub mod queries;

use cases::{compare_all, Call, Calls, Case, Kind, Plan, Reading};
use reading::{Condition, Shape};

/// How many of the generated cases of a kind find a subject different.
pub fn differences(subject: &dyn Calls, kind: Kind) -> u64 {
    let number = match kind {
        Kind::Example => 1,
        Kind::ChangeList | Kind::EitherOrder => 100,
        Kind::AtEveryPlace => 20,
        Kind::Surface => 6000,
        _ => 3000,
    };
    let report = compare_all(subject, &Plan::of_kind(4, kind, number));
    assert!(report.total().compared > 0);
    report.total().differences
}

/// The reading of one call, whose answer is altered where it accepts.
pub struct Altered {
    pub call: Call,
    pub alter: fn(given: &Case, answered: &mut Case),
}

impl Calls for Altered {
    fn run(&self, case: &mut Case) -> Option<usize> {
        if case.call != self.call {
            return None;
        }
        let given = case.clone();
        let refusal = Reading.run(case)?;
        if refusal == 0 {
            (self.alter)(&given, case);
        }
        Some(refusal)
    }
}

/// The conditions of a grid's case that was accepted.
pub fn conditions(case: &Case) -> Vec<Condition> {
    let ends = 2 * case.argument("axes").number();
    let kinds = &case.argument("kinds").bytes()[..ends];
    reading::conditions(kinds, &case.argument("values").floats()[..ends])
}

/// The shape of a grid's case that was accepted.
pub fn shape(case: &Case) -> Shape<'_> {
    let points = case.argument("points").numbers();
    Shape::checked(case.argument("axes").number(), points)
        .unwrap_or_else(|refusal| panic!("refused {refusal} where it was accepted"))
}

/// Puts the tensor back as it was, with only the sample changed.
pub fn store_the_sample_only(given: &Case, answered: &mut Case) {
    let shape = shape(given);
    let place = &given.argument("place").numbers()[..shape.axes()];
    let tensor = answered.argument_mut("tensor").floats_mut();
    tensor.copy_from_slice(given.argument("tensor").floats());
    tensor[shape.position(place, 0)] = given.argument("sample").float();
}
