//! The calls on one axis as lines, and the worked examples of them.

use crate::grid::Ends;
use crate::line::{output, patterns, scratch, BEFORE};
use reading::CURVE_SCRATCH;

/// The line of the moments, with a scratch of a length, and the moments.
pub fn moments_in(
    name: &str,
    points: usize,
    knots: &[f64],
    samples: &[f64],
    ends: Ends,
    lengths: (usize, usize),
) -> (String, Vec<f64>) {
    let (moments_length, scratch_length) = lengths;
    let mut moments = vec![BEFORE; moments_length];
    let mut lent = vec![BEFORE; scratch_length];
    let Ends { kinds, values } = ends;
    let refusal = reading::moments(
        points,
        knots,
        samples,
        &kinds,
        &values,
        &mut moments,
        &mut lent,
    );
    let (numbers, scratch) = (output(refusal, &moments), scratch(&lent));
    let line = format!("{name}: moments {refusal}{numbers}{scratch}");
    (line, moments)
}

/// The same on as many points as knots, with more scratch than is asked for.
pub fn moments(name: &str, knots: &[f64], samples: &[f64], ends: Ends) -> (String, Vec<f64>) {
    let lengths = (knots.len(), CURVE_SCRATCH + 52);
    moments_in(name, knots.len(), knots, samples, ends, lengths)
}

/// The line of the slopes, with an output of a length.
pub fn slopes_in(
    name: &str,
    points: usize,
    knots: &[f64],
    samples: &[f64],
    moments: &[f64],
    length: usize,
) -> String {
    let mut slopes = vec![BEFORE; length];
    let refusal = reading::slopes(points, knots, samples, moments, &mut slopes);
    format!("{name}: slopes {refusal}{}\n", output(refusal, &slopes))
}

/// The same on as many points as knots.
pub fn slopes(name: &str, knots: &[f64], samples: &[f64], moments: &[f64]) -> String {
    slopes_in(name, knots.len(), knots, samples, moments, knots.len())
}

/// The line of the curve at a point.
pub fn curve(
    name: &str,
    points: usize,
    knots: &[f64],
    samples: &[f64],
    moments: &[f64],
    point: f64,
) -> String {
    let mut value = [BEFORE];
    let refusal = reading::curve(points, knots, samples, moments, point, &mut value);
    format!("{name}: curve {refusal}{}\n", patterns(&value))
}

/// The moments, and the curve at points, each of which has a name of its own.
fn moments_and_curve(
    name: &str,
    knots: &[f64],
    samples: &[f64],
    ends: Ends,
    points: &[(&str, f64)],
) -> String {
    let (mut text, moments) = moments(name, knots, samples, ends);
    for (name, point) in points {
        text += &curve(name, knots.len(), knots, samples, &moments, *point);
    }
    text
}

/// The moments and the slopes.
fn moments_and_slopes(
    name: &str,
    knots: &[f64],
    samples: &[f64],
    ends: Ends,
) -> (String, Vec<f64>) {
    let (line, moments) = moments(name, knots, samples, ends);
    (line + &slopes(name, knots, samples, &moments), moments)
}

fn natural() -> String {
    let (knots, samples) = ([0.0, 1.0, 2.0], [0.0, 1.0, 0.0]);
    let (text, moments) = moments_and_slopes("natural", &knots, &samples, Ends::NATURAL);
    text + &curve("natural at 0.5", 3, &knots, &samples, &moments, 0.5)
}

fn first_derivatives() -> String {
    let line = [0.0, 1.0];
    let points = [("first derivatives at 0.5", 0.5)];
    moments_and_curve(
        "first derivatives",
        &line,
        &line,
        Ends::first(0.0, 0.0),
        &points,
    )
}

fn not_a_knot() -> String {
    let (knots, samples) = ([0.0, 1.0, 2.0, 3.0], [1.0, 3.0, 5.0, 7.0]);
    let points = [("not a knot at 1.5", 1.5), ("not a knot at 4", 4.0)];
    moments_and_curve("not a knot", &knots, &samples, Ends::NOT_A_KNOT, &points)
}

fn periodic() -> String {
    moments_and_slopes("periodic", &[0.0, 1.0], &[0.0, 5.0], Ends::PERIODIC).0
}

fn periodic_rounds() -> String {
    let (knots, samples) = ([0.0, 1.0, 2.0], [2.0, 5.0, 1.0]);
    let points = [("periodic rounds at 0", 0.0)];
    moments_and_curve("periodic rounds", &knots, &samples, Ends::PERIODIC, &points)
}

/// The cell that the unchanged search gives.
fn cell(name: &str, point: f64) -> String {
    let knots = [0.0, 1.0, 2.0];
    let cell = ninterp_unchanged::locate_lower_index(knots.as_slice().into(), &point);
    format!("{name} on knots 0 1 2: cell {cell}\n")
}

/// What the program trial_one_axis prints.
pub fn examples() -> String {
    [
        natural(),
        first_derivatives(),
        not_a_knot(),
        periodic(),
        periodic_rounds(),
        cell("point 1", 1.0),
        cell("point 2", 2.0),
        cell("point -1", -1.0),
    ]
    .concat()
}
