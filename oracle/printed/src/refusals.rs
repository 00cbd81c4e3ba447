//! The refusals on one axis, and beside them what is just accepted.

use crate::grid::Ends;
use crate::one_axis::{curve, moments, moments_in, slopes, slopes_in};
use reading::CURVE_SCRATCH;

const LINE: [f64; 2] = [0.0, 1.0];
const NATURAL: Ends = Ends::NATURAL;
const ENOUGH: usize = CURVE_SCRATCH + 52;

/// The three calls on as many points as knots, with moments of zero.
fn on_knots(name: &str, knots: &[f64], samples: &[f64]) -> String {
    let zeros = vec![0.0; knots.len()];
    moments(name, knots, samples, NATURAL).0
        + &slopes(name, knots, samples, &zeros)
        + &curve(name, knots.len(), knots, samples, &zeros, 0.5)
}

fn points() -> String {
    on_knots("1 point", &[0.0], &[0.0]) + &on_knots("257 points", &[0.0; 257], &[0.0; 257])
}

/// The three calls for 2 points with slices of these lengths.
fn of_lengths(name: &str, [knots, samples, moments, slopes]: [usize; 4]) -> String {
    let rising = [0.0, 1.0, 2.0];
    let (knots, samples, zeros) = (&rising[..knots], &rising[..samples], &[0.0; 3][..moments]);
    moments_in(name, 2, knots, samples, NATURAL, (moments, ENOUGH)).0
        + &slopes_in(name, 2, knots, samples, zeros, slopes)
        + &curve(name, 2, knots, samples, zeros, 0.5)
}

fn lengths() -> String {
    of_lengths("3 knots for 2 points", [3, 2, 2, 2])
        + &of_lengths("1 sample for 2 points", [2, 1, 2, 2])
        + &of_lengths("3 moments for 2 points", [2, 2, 3, 2])
        + &of_lengths("3 slopes for 2 points", [2, 2, 2, 3])
}

fn scratch() -> String {
    let of = |name, length| moments_in(name, 2, &LINE, &LINE, NATURAL, (2, length)).0;
    of("scratch of 2047", 2047) + &of("scratch of 2048", 2048)
}

/// The moments of the first points of a zigzag.
fn first_points(name: &str, points: usize, ends: Ends) -> String {
    let (knots, samples) = ([0.0, 1.0, 2.0, 3.0], [0.0, 1.0, 0.0, 1.0]);
    moments(name, &knots[..points], &samples[..points], ends).0
}

fn not_finite() -> String {
    let at_point = |name, point| curve(name, 2, &LINE, &LINE, &[0.0; 2], point);
    let infinite_end = Ends::of([2, 1], [0.0, f64::INFINITY]);
    at_point("NaN point", f64::NAN)
        + &at_point("infinite point", f64::INFINITY)
        + &on_knots("NaN sample", &LINE, &[0.0, f64::NAN])
        + &on_knots("infinite knot", &[0.0, f64::INFINITY], &LINE)
        + &first_points("infinite end value", 2, infinite_end)
}

fn knots() -> String {
    on_knots("knots 0 and 0", &[0.0, 0.0], &LINE)
        + &on_knots("knots 0 and -0", &[0.0, -0.0], &LINE)
        + &on_knots("knots -1e308 and 1e308", &[-1e308, 1e308], &LINE)
}

fn not_a_knot() -> String {
    let (both, lower, upper) = (
        Ends::NOT_A_KNOT,
        Ends::of([0, 2], [0.0, 0.0]),
        Ends::of([2, 0], [0.0, 0.0]),
    );
    first_points("not a knot at both ends with 3 points", 3, both)
        + &first_points("not a knot at both ends with 4 points", 4, both)
        + &first_points("not a knot at the lower end with 2 points", 2, lower)
        + &first_points("not a knot at the lower end with 3 points", 3, lower)
        + &first_points("not a knot at the upper end with 2 points", 2, upper)
        + &first_points("not a knot at the upper end with 3 points", 3, upper)
}

fn overflow() -> String {
    let (knots, steep, zeros) = ([0.0, 1.0, 2.0], [1e308, -1e308, 1e308], [0.0; 3]);
    moments("steep samples", &knots, &steep, NATURAL).0
        + &slopes("steep samples", &knots, &steep, &zeros)
        + &curve("steep moments at 9", 3, &knots, &zeros, &steep, 9.0)
}

/// Moments are not searched for what is not finite: the outcome is refused.
fn not_finite_moments() -> String {
    let moments = [0.0, f64::NAN];
    slopes("NaN moment", &LINE, &LINE, &moments)
        + &curve("NaN moment", 2, &LINE, &LINE, &moments, 0.5)
}

/// What the program one_axis_refusals prints.
pub fn refusals() -> String {
    [
        points(),
        lengths(),
        scratch(),
        not_finite(),
        knots(),
        not_a_knot(),
        overflow(),
        not_finite_moments(),
    ]
    .concat()
}
