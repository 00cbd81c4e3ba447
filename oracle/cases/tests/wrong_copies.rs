//! Copies of the reading with one deliberate error each: the cases find them.

mod altered;

use altered::{conditions, differences, shape, store_the_sample_only, Altered};
use cases::{Call, Case, Kind, Reading, KINDS};
use ninterp_unchanged::{evaluate_spline_from_m, locate_lower_index, thomas};
use reading::{lanes_of_build, lanes_of_change, solve_lane, solve_lanes, Lane};

#[test]
fn the_reading_itself_is_never_different() {
    for kind in KINDS {
        assert_eq!(differences(&Reading, kind), 0, "{}", kind.name());
    }
}

/// Builds with the axis's own ends for every mask.
fn keep_values_in_cross_passes(given: &Case, answered: &mut Case) {
    let (shape, conditions) = (shape(given), conditions(given));
    let knots = given.argument("knots").floats();
    let tensor = answered.argument_mut("tensor").floats_mut();
    for lane in lanes_of_build(&shape) {
        solve_lane(&shape, &conditions[lane.axis], knots, tensor, &lane);
    }
}

#[test]
fn a_cross_pass_that_keeps_its_value_is_found() {
    let wrong = Altered {
        call: Call::Build,
        alter: keep_values_in_cross_passes,
    };
    assert!(differences(&wrong, Kind::Build) > 0);
}

/// Solves two periodic intervals without their corner.
fn drop_corner(given: &Case, answered: &mut Case) {
    if given.argument("points").number() != 3 || given.argument("kinds").bytes()[0] != 3 {
        return;
    }
    let (x, y) = (
        given.argument("knots").floats(),
        given.argument("samples").floats(),
    );
    let h = [x[1] - x[0], x[2] - x[1]];
    let s = [(y[1] - y[0]) / h[0], (y[2] - y[1]) / h[1]];
    let diagonal = [2.0 * (h[1] + h[0]), 2.0 * (h[0] + h[1])];
    let right_side = [6.0 * (s[0] - s[1]), 6.0 * (s[1] - s[0])];
    let solved = thomas(&h[..1], &diagonal, &h[..1], &right_side);
    let moments = answered.argument_mut("moments").floats_mut();
    moments.copy_from_slice(&[solved[0], solved[1], solved[0]]);
}

#[test]
fn a_dropped_corner_is_found() {
    let wrong = Altered {
        call: Call::Moments,
        alter: drop_corner,
    };
    assert!(differences(&wrong, Kind::Moments) > 0);
}

/// Knot slopes with the division by six left open.
fn slopes_with(sixth: fn(f64) -> f64, given: &Case, answered: &mut Case) {
    let (x, y) = (
        given.argument("knots").floats(),
        given.argument("samples").floats(),
    );
    let m = given.argument("moments").floats();
    let slopes = answered.argument_mut("slopes").floats_mut();
    for i in 0..x.len() - 1 {
        let h = x[i + 1] - x[i];
        slopes[i] = (y[i + 1] - y[i]) / h - sixth(h * (2.0 * m[i] + m[i + 1]));
    }
}

#[test]
fn a_reciprocal_of_six_is_found() {
    let right = Altered {
        call: Call::Slopes,
        alter: |given, answered| slopes_with(|number| number / 6.0, given, answered),
    };
    assert_eq!(differences(&right, Kind::Slopes), 0);
    let wrong = Altered {
        call: Call::Slopes,
        alter: |given, answered| slopes_with(|number| number * (1.0 / 6.0), given, answered),
    };
    assert!(differences(&wrong, Kind::Slopes) > 0);
}

/// The curve with its differences of a number and a product left open.
fn curve_with(less_product: fn(f64, f64, f64) -> f64, given: &Case, answered: &mut Case) {
    let (x, y) = (
        given.argument("knots").floats(),
        given.argument("samples").floats(),
    );
    let (m, point) = (
        given.argument("moments").floats(),
        given.argument("point").float(),
    );
    let i = locate_lower_index(x.into(), &point);
    let h = x[i + 1] - x[i];
    let (above, below) = (point - x[i], h - (point - x[i]));
    let cubes =
        m[i] * below * below * below / (6.0 * h) + m[i + 1] * above * above * above / (6.0 * h);
    let lower = less_product(y[i], m[i], h * h / 6.0);
    let upper = less_product(y[i + 1], m[i + 1], h * h / 6.0);
    let value = cubes + lower * below / h + upper * above / h;
    answered.argument_mut("value").floats_mut()[0] = value;
}

#[test]
fn a_fused_product_is_found() {
    let right = Altered {
        call: Call::Curve,
        alter: |given, answered| curve_with(|y, m, h| y - m * h, given, answered),
    };
    assert_eq!(differences(&right, Kind::Curve), 0);
    let wrong = Altered {
        call: Call::Curve,
        alter: |given, answered| curve_with(|y, m, h| (-m).mul_add(h, y), given, answered),
    };
    assert!(differences(&wrong, Kind::Curve) > 0);
}

/// Whether a lane goes through a place.
fn goes_through(lane: &Lane, place: &[usize]) -> bool {
    let mut fixed = (0..place.len()).filter(|axis| *axis != lane.axis);
    fixed.all(|axis| lane.start[axis] == place[axis])
}

/// A change that solves no lanes but those through the changed place.
fn solve_lanes_through_the_place(given: &Case, answered: &mut Case) {
    store_the_sample_only(given, answered);
    let shape = shape(given);
    let place = &given.argument("place").numbers()[..shape.axes()];
    let mut lanes = lanes_of_change(&shape, place);
    lanes.retain(|lane| goes_through(lane, place));
    let knots = given.argument("knots").floats();
    let tensor = answered.argument_mut("tensor").floats_mut();
    solve_lanes(&shape, &conditions(given), knots, tensor, &lanes);
}

#[test]
fn a_change_of_the_lanes_through_the_place_only_is_found() {
    let wrong = Altered {
        call: Call::Change,
        alter: solve_lanes_through_the_place,
    };
    assert!(differences(&wrong, Kind::Change) > 0);
    assert!(differences(&wrong, Kind::ChangeList) > 0);
    assert!(differences(&wrong, Kind::EitherOrder) > 0);
}

#[test]
fn a_label_of_the_knot_that_a_point_lies_on_is_found() {
    let wrong = Altered {
        call: Call::Query,
        alter: |given, answered| {
            let knots = &given.argument("knots").floats()[..given.argument("points").numbers()[0]];
            let point = given.argument("coordinates").floats()[0];
            let last = knots.iter().rposition(|knot| *knot <= point);
            let label = last.unwrap_or(0).min(knots.len() - 2);
            answered.argument_mut("labels").numbers_mut()[0] = label;
        },
    };
    assert!(differences(&wrong, Kind::Query) > 0);
}

/// The curve as it is in the cell after an interior knot.
fn take_the_cell_after_a_knot(given: &Case, answered: &mut Case) {
    let knots = given.argument("knots").floats();
    let point = given.argument("point").float();
    let interior = 1..knots.len() - 1;
    if let Some(knot) = interior.into_iter().find(|knot| knots[*knot] == point) {
        let samples = &given.argument("samples").floats()[knot..];
        let moments = &given.argument("moments").floats()[knot..];
        let value = evaluate_spline_from_m(&knots[knot..], samples, moments, point);
        answered.argument_mut("value").floats_mut()[0] = value;
    }
}

#[test]
fn a_cell_after_the_knot_is_found() {
    let wrong = Altered {
        call: Call::Curve,
        alter: take_the_cell_after_a_knot,
    };
    assert!(differences(&wrong, Kind::Curve) > 0);
}

/// The curve with each sample given back at its knot.
fn give_samples_back(given: &Case, answered: &mut Case) {
    let point = given.argument("point").float();
    let knots = given.argument("knots").floats();
    if let Some(knot) = knots.iter().position(|knot| *knot == point) {
        let sample = given.argument("samples").floats()[knot];
        answered.argument_mut("value").floats_mut()[0] = sample;
    }
}

#[test]
fn a_curve_that_gives_its_samples_back_is_found() {
    let wrong = Altered {
        call: Call::Curve,
        alter: give_samples_back,
    };
    assert!(differences(&wrong, Kind::Curve) > 0);
}
