//! The quick query, the query of even axes and their profile, the direct query and the stepped surface as lines,
//! and many points by one call; the worked examples of them.

use crate::grid::{Ends, Grid, Many};
use crate::line::{counts, patterns};
use crate::surface::{query_in_mode, sawtooth};
use reading::{EXTEND, HOLD, REFUSE};

const MODES: [(&str, u8); 3] = [("extend", EXTEND), ("hold", HOLD), ("refuse", REFUSE)];

/// 2 to the 64 steps: more than a whole number of 64 bits counts.
const TOO_FAR: f64 = 18_446_744_073_709_551_616.0;

/// A tensor on axes of which nothing but the knots counts.
struct Surface {
    grid: Grid,
    mode: u8,
    tensor: Vec<f64>,
}

impl Surface {
    fn new(axes: &[&[f64]], mode: u8, tensor: Vec<f64>) -> Self {
        let axes: Vec<(Ends, &[f64])> = axes.iter().map(|knots| (Ends::NATURAL, *knots)).collect();
        let grid = Grid::new(&axes);
        Self { grid, mode, tensor }
    }

    /// On one axis in extend, with numbers of the sawtooth.
    fn line(knots: &[f64]) -> Self {
        Self::new(&[knots], EXTEND, sawtooth(2 * knots.len()))
    }

    fn full(&self, name: &str, point: &[f64]) -> String {
        query_in_mode(name, &self.grid, self.mode, &self.tensor, point)
    }

    fn quick(&self, name: &str, point: &[f64]) -> String {
        let (refusal, value, labels) = self.grid.quick_query([self.mode; 4], &self.tensor, point);
        let (value, labels) = (patterns(&[value]), counts(&labels));
        format!("{name}: quick query {refusal}{value} labels{labels}\n")
    }

    fn even(&self, name: &str, point: &[f64]) -> String {
        let (answer, uneven) = self.grid.even_query([self.mode; 4], &self.tensor, point);
        let (refusal, value, labels) = answer;
        let (value, labels, uneven) = (patterns(&[value]), counts(&labels), counts(&uneven));
        format!("{name}: even query {refusal}{value} labels{labels} uneven{uneven}\n")
    }

    fn profile(&self, name: &str) -> String {
        let (refusal, told) = self.grid.even_profile();
        format!("{name}: even profile {refusal} told{}\n", counts(&told))
    }

    fn even_and_profile(&self, name: &str, point: &[f64]) -> String {
        self.even(name, point) + &self.profile(name)
    }

    fn direct(&self, name: &str, point: &[f64]) -> String {
        let (refusal, value, labels) = self.grid.direct_query([self.mode; 4], &self.tensor, point);
        let (value, labels) = (patterns(&[value]), counts(&labels));
        format!("{name}: direct query {refusal}{value} labels{labels}\n")
    }

    fn full_and_quick(&self, name: &str, point: &[f64]) -> String {
        self.full(name, point) + &self.quick(name, point)
    }

    fn full_and_even(&self, name: &str, point: &[f64]) -> String {
        self.full(name, point) + &self.even(name, point)
    }
}

/// On rising knots both queries answer alike, in every mode.
fn quick_modes() -> String {
    let tensor = vec![0.0, 1.0, 2.0, -1.0, 1.0, 0.5, -3.0, 2.0];
    let mut lines = String::new();
    for (word, mode) in MODES {
        let surface = Surface::new(&[&[0.0, 1.0, 2.0, 4.0]], mode, tensor.clone());
        for point in [1.0, 3.25, 9.0] {
            lines += &surface.full_and_quick(&format!("{word} at {point}"), &[point]);
        }
    }
    let two: [&[f64]; 2] = [&[0.0, 1.0, 3.0], &[-2.0, 0.5, 1.0]];
    let two = Surface::new(&two, EXTEND, sawtooth(36));
    lines + &two.full_and_quick("two axes", &[2.25, 0.75])
}

/// On other knots the quick query goes by halves, and looks at no knot off its path.
fn other_knots() -> String {
    let off_the_path = |name, second| {
        Surface::line(&[0.0, second, 2.0, 3.0, 4.0, 5.0]).full_and_quick(name, &[2.5])
    };
    let falling =
        |name, last| Surface::line(&[0.0, 5.0, 1.0, 2.0, last]).full_and_quick(name, &[3.0]);
    [
        off_the_path("second knot NaN", f64::NAN),
        off_the_path("second knot -7", -7.0),
        falling("knots 0 5 1 2 10 at 3", 10.0),
        falling("knots 0 5 1 2 3 at 3", 3.0),
    ]
    .concat()
}

/// The refusals of a cell of two knots.
fn two_knots() -> String {
    let at = |name, knots: [f64; 2], point| {
        Surface::new(&[&knots], EXTEND, vec![0.0, 1.0, 1.0, 1.0]).quick(name, &[point])
    };
    [
        at("knots 1 0 at 0.5", [1.0, 0.0], 0.5),
        at("knots 1 1 at 1", [1.0, 1.0], 1.0),
        at("knots -1e308 1e308 at 0", [-1e308, 1e308], 0.0),
        at("knots 0 NaN at 0.5", [0.0, f64::NAN], 0.5),
        at("knots 0 NaN at NaN", [0.0, f64::NAN], f64::NAN),
    ]
    .concat()
}

/// On the knots 0 1 2 the cell is not always that of the search, and hold replaces before it is found.
fn even_modes() -> String {
    let tensor = vec![0.0, 1.5, 1.0, 0.0, 0.5, 1.0];
    let points = [("1.5", 1.5), ("1", 1.0), ("2", 2.0), ("2^64", TOO_FAR)];
    let mut lines = String::new();
    for (word, mode) in MODES {
        let surface = Surface::new(&[&[0.0, 1.0, 2.0]], mode, tensor.clone());
        for (at, point) in points {
            lines += &surface.full_and_even(&format!("even, {word} at {at}"), &[point]);
        }
    }
    lines
}

/// Two axes of three knots, of which the last are given.
fn two_axes(name: &str, last: [f64; 2], point: [f64; 2]) -> String {
    let knots: [&[f64]; 2] = [&[0.0, 1.0, last[0]], &[0.0, 1.0, last[1]]];
    Surface::new(&knots, REFUSE, sawtooth(36)).even_and_profile(name, &point)
}

/// What 21 tells, and what comes before it and after it.
fn uneven() -> String {
    let outside = [5.0, 1.0];
    [
        two_axes("steps 1 1 and 1 1", [2.0, 2.0], [0.25, 1.75]),
        two_axes("steps 1 1 and 1 1 at 5 1", [2.0, 2.0], outside),
        two_axes("steps 1 1 and 1 2 at 5 1", [2.0, 3.0], outside),
        two_axes("steps 1 2 and 1 3 at 5 1", [3.0, 4.0], outside),
        two_axes("steps 1 2 and 1 0 at 5 1", [3.0, 1.0], outside),
    ]
    .concat()
}

/// What 8 tells, and 7 before it; and an interval that overflows.
fn refused_knots() -> String {
    let inside = [0.25, 0.5];
    [
        two_axes("steps 1 -1 and 1 2", [0.0, 3.0], inside),
        two_axes("steps 1 -1 and 1 NaN", [0.0, f64::NAN], inside),
        Surface::line(&[-1e308, 1e308, 1.5e308]).profile("knots -1e308 1e308 1.5e308"),
    ]
    .concat()
}

/// The first interval that fails, and the tolerance, which is 2 to the -42 for a step of 1.
fn intervals() -> String {
    let five_knots = |name, fourth, fifth| {
        Surface::line(&[0.0, 1.0, 2.0, fourth, fifth]).even_and_profile(name, &[0.5])
    };
    let last_even = 3.0 + 2f64.powi(-42);
    [
        five_knots("steps 1 1 2 4", 4.0, 8.0),
        five_knots("steps 1 1 1 2", 3.0, 5.0),
        five_knots("fourth knot at the tolerance", last_even, 4.0),
        five_knots("fourth knot above it", last_even.next_up(), 4.0),
    ]
    .concat()
}

/// The last knot, so far above the first that the quotient overflows.
fn out_of_reach() -> String {
    let tensor = vec![0.0, 0.0, 1.0, 0.0, 2.0, 0.0];
    let surface = Surface::new(&[&[-1e308, 0.0, 1e308]], EXTEND, tensor);
    surface.full_and_even("knots -1e308 0 1e308 at 1e308", &[1e308])
}

/// The cell by one division on any knots, and what is refused of it.
fn direct() -> String {
    let line = |name, mode, last, point| {
        let tensor = vec![0.0, 1.0, 1.0, 1.0, 2.0, 1.0];
        Surface::new(&[&[0.0, 1.0, last]], mode, tensor).direct(name, &[point])
    };
    [
        line("direct at 1", EXTEND, 2.0, 1.0),
        line("direct at 0.5, last knot 9", EXTEND, 9.0, 0.5),
        line("direct at 1.5, last knot 1", EXTEND, 1.0, 1.5),
        line("direct at 5, in hold", HOLD, 2.0, 5.0),
        line("direct at 5, in refuse", REFUSE, 2.0, 5.0),
        line("direct at NaN", EXTEND, 2.0, f64::NAN),
    ]
    .concat()
}

/// The stepped surface at one point, downward and upward, and on two axes in a direction each.
fn steps() -> String {
    let (samples, nan) = ([5.0, 6.0, 8.0], f64::NAN);
    let rising = [0.0, 1.0, 2.0];
    let line = |name: &str, axes: &[&[f64]], way, samples: &[f64], point: &[f64]| {
        let (said, directions): (&str, [u8; 4]) = way;
        let grid = Surface::new(axes, EXTEND, Vec::new()).grid;
        let (refusal, value, indices) = grid.stepped(directions, samples, point);
        let (value, indices) = (patterns(&[value]), counts(&indices));
        format!("{name}: stepped {said} {refusal}{value} indices{indices}\n")
    };
    let both = |name, knots: &[f64], samples: &[f64], point| {
        [("down", [0; 4]), ("up", [1; 4])].map(|way| line(name, &[knots], way, samples, &[point]))
    };
    let one_axis = [
        both("step at 0.5", &rising, &samples, 0.5),
        both("step at 1", &rising, &samples, 1.0),
        both("step at 9", &rising, &samples, 9.0),
        both("step at -9", &rising, &samples, -9.0),
        both("step at NaN", &rising, &samples, nan),
        both("step on knots 0 2 1", &[0.0, 2.0, 1.0], &samples, 0.5),
        both("step on two samples", &rising, &samples[..2], 0.5),
    ];
    let two: [&[f64]; 2] = [&[0.0, 1.0, 3.0], &[-2.0, 0.5, 1.0]];
    let mixed = ("down and up", [0, 1, 0, 0]);
    let on_two = |name, point: &[f64]| line(name, &two, mixed, &sawtooth(9), point);
    one_axis.concat().concat()
        + &on_two("step on two axes", &[2.25, 0.75])
        + &on_two("step on two axes by one coordinate", &[2.25])
}

/// The line of a call at three points.
fn three(
    name: &str,
    (call, many): (&str, Many),
    axes: &[&[f64]],
    numbers: [u8; 4],
    surface: &[f64],
    coordinates: &[f64],
) -> String {
    let grid = Surface::new(axes, EXTEND, Vec::new()).grid;
    let (refusal, values, labels, refusals) = grid.ask_three(many, numbers, surface, coordinates);
    let (values, labels) = (patterns(&values), counts(&labels));
    let refusals = counts(&refusals);
    format!("{name}: {call} {refusal}{values} labels{labels} refusals{refusals}\n")
}

/// Many points by one call of either query.
fn many_queries() -> String {
    let tensor = [0.0, 1.0, 2.0, -1.0, 1.0, 0.5, -3.0, 2.0];
    let both = |name, mode, knots: &[f64], coordinates: &[f64]| {
        let calls: [(&str, Many); 2] = [
            ("quick queries", reading::quick_queries),
            ("direct queries", reading::direct_queries),
        ];
        calls.map(|call| three(name, call, &[knots], [mode; 4], &tensor, coordinates))
    };
    let uneven = [0.0, 1.0, 2.0, 4.0];
    let even = [0.0, 1.0, 2.0, 3.0];
    let nan = f64::NAN;
    [
        both("many at 1 NaN 3.25", EXTEND, &uneven, &[1.0, nan, 3.25]),
        both("many at 1 9 3", REFUSE, &even, &[1.0, 9.0, 3.0]),
        both("many of two coordinates", HOLD, &uneven, &[1.0, nan]),
    ]
    .concat()
    .concat()
}

/// Many points stepped at by one call.
fn many_steps() -> String {
    let call: (&str, Many) = ("stepped many", reading::stepped_many);
    let (samples, nan) = ([5.0, 6.0, 8.0], f64::NAN);
    let line = |name, knots: &[f64], coordinates: &[f64]| {
        three(name, call, &[knots], [0; 4], &samples, coordinates)
    };
    let two: [&[f64]; 2] = [&[0.0, 1.0, 3.0], &[-2.0, 0.5, 1.0]];
    let at = [2.25, 0.75, 3.0, nan, -1.0, -2.0];
    [
        line("steps at 0.5 NaN 9", &[0.0, 1.0, 2.0], &[0.5, nan, 9.0]),
        line("steps on knots 0 2 1", &[0.0, 2.0, 1.0], &[0.5, nan, 9.0]),
        line("steps of two coordinates", &[0.0, 1.0, 2.0], &[0.5, nan]),
        three(
            "steps on two axes",
            call,
            &two,
            [0, 1, 0, 0],
            &sawtooth(9),
            &at,
        ),
    ]
    .concat()
}

/// What the program trial_query prints.
pub fn examples() -> String {
    [
        quick_modes(),
        other_knots(),
        two_knots(),
        even_modes(),
        uneven(),
        refused_knots(),
        intervals(),
        out_of_reach(),
        direct(),
        steps(),
        many_queries(),
        many_steps(),
    ]
    .concat()
}
