//! The stand-in for ndarray puts every number where flat places say: what is
//! computed through it is the same when written over flat slices. For queries
//! `wrong_queries` sees it.

mod altered;

use altered::{conditions, differences, shape, Altered};
use cases::{Call, Case, Kind};
use reading::{lanes_of_build, solve_lanes};

/// Solves the lanes of a build one after the other.
fn build_by_lanes(given: &Case, answered: &mut Case) {
    let (shape, conditions) = (shape(given), conditions(given));
    let knots = given.argument("knots").floats();
    let tensor = answered.argument_mut("tensor").floats_mut();
    tensor.fill(f64::NAN);
    for (number, sample) in given.argument("samples").floats().iter().enumerate() {
        tensor[number * shape.masks()] = *sample;
    }
    let lanes = lanes_of_build(&shape);
    solve_lanes(&shape, &conditions, knots, tensor, &lanes);
}

#[test]
fn a_build_is_its_lanes_solved_in_order() {
    let again = Altered {
        call: Call::Build,
        alter: build_by_lanes,
    };
    assert_eq!(differences(&again, Kind::Build), 0);
}
