//! Edges that the generated cases are to reach, and whether a case reaches one.

use crate::case::{Call, Case};
use crate::overflow::{numbered_ends, refusal_with};
use crate::reached_sheets::{SHEET_COUNT, SHEET_EDGES};
use crate::reached_streams::{STREAM_COUNT, STREAM_EDGES};
use crate::reached_tensors::{TENSOR_COUNT, TENSOR_EDGES};
use crate::sheet::length_of;
use ninterp_unchanged::{
    locate_lower_index, locate_lower_index_uniform, validate_uniform_grid_epsilon,
};
use reading::{EXTEND, HOLD, REFUSE};

/// An edge in words, and whether a case with its refusal reaches it.
pub struct Edge {
    pub name: &'static str,
    pub is_reached: fn(&Case, usize) -> bool,
}

/// How many edges there are, beside those of sheets that are read, of streams and of tensors that are
/// verified.
const COUNT: usize = 47;

const EDGES: [Edge; COUNT] = [
    Edge {
        name: "a coordinate one unit below a knot",
        is_reached: |case, refusal| refusal == 0 && beside_a_knot(case, f64::next_down),
    },
    Edge {
        name: "a coordinate one unit above a knot",
        is_reached: |case, refusal| refusal == 0 && beside_a_knot(case, f64::next_up),
    },
    Edge {
        name: "one axis of 65 to 254 points",
        is_reached: |case, refusal| refusal == 0 && one_long_axis(case),
    },
    Edge {
        name: "a huge end value",
        is_reached: |case, refusal| begins_work(refusal) && !huge_ends(case).is_empty(),
    },
    Edge {
        name: "a subnormal end value",
        is_reached: |case, refusal| refusal == 0 && a_subnormal_end(case),
    },
    Edge {
        name: "the last end value before an overflow",
        is_reached: |case, refusal| refusal == 0 && neighbour_refused_by(case, f64::next_up, 10),
    },
    Edge {
        name: "the first end value of an overflow",
        is_reached: |case, refusal| refusal == 10 && neighbour_refused_by(case, f64::next_down, 0),
    },
    Edge {
        name: "the last step before an overflow",
        is_reached: |case, refusal| refusal == 0 && a_step_at_the_edge(case),
    },
    Edge {
        name: "the first step of an overflow",
        is_reached: |case, refusal| refusal == 8 && a_step_past_the_edge(case),
    },
    Edge {
        name: "a tensor of more than 3,900 numbers",
        is_reached: |case, refusal| refusal == 0 && a_long_tensor(case),
    },
    Edge {
        name: "a wrong number of axes beside a slice of a fixed length that is off",
        is_reached: |case, refusal| refusal == 1 && a_fixed_length_off(case),
    },
    Edge {
        name: "kinds that are refused beside knots of another length",
        is_reached: |case, refusal| refusal == 4 && no_kinds_beside_a_length_off(case),
    },
    Edge {
        name: "a quick query on knots that the full one accepts",
        is_reached: |case, refusal| is_searched(case, refusal) && knots_rise(case),
    },
    Edge {
        name: "a quick query on knots that the full one refuses",
        is_reached: |case, refusal| is_searched(case, refusal) && !knots_rise(case),
    },
    Edge {
        name: "an accepted quick query beside an infinity or NaN among its knots",
        is_reached: |case, refusal| is_quick(case) && refusal == 0 && !knots_finite(case),
    },
    Edge {
        name: "an accepted quick query beside finite knots that do not rise",
        is_reached: |case, refusal| {
            is_quick(case) && refusal == 0 && knots_finite(case) && !knots_rise(case)
        },
    },
    Edge {
        name: "a search that ends past the last cell",
        is_reached: |case, refusal| is_searched(case, refusal) && is_held(case),
    },
    Edge {
        name: "in extend a coordinate at an end knot",
        is_reached: |case, refusal| refusal == 0 && in_mode(case, EXTEND, at_an_end),
    },
    Edge {
        name: "in extend a coordinate one unit inside an end knot",
        is_reached: |case, refusal| refusal == 0 && in_mode(case, EXTEND, just_inside),
    },
    Edge {
        name: "in extend a coordinate one unit outside an end knot",
        is_reached: |case, refusal| refusal == 0 && in_mode(case, EXTEND, just_outside),
    },
    Edge {
        name: "in hold a coordinate at an end knot",
        is_reached: |case, refusal| refusal == 0 && in_mode(case, HOLD, at_an_end),
    },
    Edge {
        name: "in hold a coordinate one unit inside an end knot",
        is_reached: |case, refusal| refusal == 0 && in_mode(case, HOLD, just_inside),
    },
    Edge {
        name: "in hold a coordinate one unit outside an end knot",
        is_reached: |case, refusal| refusal == 0 && in_mode(case, HOLD, just_outside),
    },
    Edge {
        name: "in refuse a coordinate at an end knot",
        is_reached: |case, refusal| refusal == 0 && in_mode(case, REFUSE, at_an_end),
    },
    Edge {
        name: "in refuse a coordinate one unit inside an end knot",
        is_reached: |case, refusal| refusal == 0 && in_mode(case, REFUSE, just_inside),
    },
    Edge {
        name: "in refuse a coordinate one unit outside an end knot",
        is_reached: |case, refusal| refusal == 18 && in_mode(case, REFUSE, just_outside),
    },
    Edge {
        name: "in refuse a zero at an end knot that is the zero of the other sign",
        is_reached: |case, refusal| refusal == 0 && in_mode(case, REFUSE, at_the_other_zero),
    },
    Edge {
        name: "in hold a coordinate below the first knot and above the last",
        is_reached: |case, refusal| refusal == 0 && in_mode(case, HOLD, below_and_above),
    },
    Edge {
        name: "on every axis a coordinate at a knot between two cells",
        is_reached: |case, refusal| refusal == 0 && between_cells_on_every_axis(case),
    },
    Edge {
        name: "a coordinate at a knot that is the zero of the other sign",
        is_reached: |case, refusal| refusal == 0 && at_a_knot_of_the_other_zero(case),
    },
    Edge {
        name: "an even query in another cell than the search finds",
        is_reached: |case, refusal| is_even(case) && refusal == 0 && in_another_cell(case),
    },
    Edge {
        name: "an even query whose quotient does not fit into a whole number",
        is_reached: |case, refusal| is_even(case) && refusal == 0 && far_above(case),
    },
    Edge {
        name: "even knots that are not with an upper knot one unit off",
        is_reached: |case, refusal| is_even(case) && refusal == 0 && at_the_tolerance(case, true),
    },
    Edge {
        name: "uneven knots that are even with an upper knot one unit off",
        is_reached: |case, refusal| is_even(case) && refusal == 21 && at_the_tolerance(case, false),
    },
    Edge {
        name: "a sheet written to a buffer of its own length",
        is_reached: |case, refusal| refusal == 0 && bytes_past_the_sheet(case) == Some(0),
    },
    Edge {
        name: "a sheet written to a longer buffer",
        is_reached: |case, refusal| {
            refusal == 0 && bytes_past_the_sheet(case).is_some_and(|past| past > 0)
        },
    },
    Edge {
        name: "a sheet not written to a buffer one byte short",
        is_reached: |case, refusal| refusal == 15 && bytes_past_the_sheet(case) == Some(-1),
    },
    Edge {
        name: "a sheet of more than 8,000 bytes written",
        is_reached: |case, refusal| {
            let written = refusal == 0 && bytes_past_the_sheet(case).is_some();
            written && case.argument("bytes").length() > 8000
        },
    },
    Edge {
        name: "a sheet of edition 2 written with other modes on two axes",
        is_reached: |case, refusal| refusal == 0 && in_edition(case, 2) && modes_differ(case),
    },
    Edge {
        name: "a sheet of edition 1 written beside modes that are not read",
        is_reached: |case, refusal| refusal == 0 && in_edition(case, 1) && other_modes_behind(case),
    },
    Edge {
        name: "a mode that edition 1 has no room for beside a buffer that is too short",
        is_reached: |case, refusal| refusal == 23 && too_short(case),
    },
    Edge {
        name: "an edition that is none beside a buffer that is too short",
        is_reached: |case, refusal| refusal == 12 && too_short(case),
    },
    Edge {
        name: "a step upward from below all knots",
        is_reached: |case, refusal| refusal == 0 && a_step(case, 1, |knots, p| p < knots[0]),
    },
    Edge {
        name: "a step upward from the first knot",
        is_reached: |case, refusal| refusal == 0 && a_step(case, 1, |knots, p| p == knots[0]),
    },
    Edge {
        name: "a step downward from above all knots",
        is_reached: |case, refusal| refusal == 0 && a_step(case, 0, |knots, p| p > last(knots)),
    },
    Edge {
        name: "a step downward from the last knot",
        is_reached: |case, refusal| refusal == 0 && a_step(case, 0, |knots, p| p == last(knots)),
    },
    Edge {
        name: "a direction that is none beside a slice of another length",
        is_reached: |case, refusal| refusal == 4 && no_direction(case),
    },
];

/// The modes of the axes in use, and those behind them.
fn modes(case: &Case) -> (&[u8], &[u8]) {
    let axes = case.argument("axes").number();
    case.argument("modes").bytes().split_at(axes)
}

/// Whether a sheet is written in an edition.
fn in_edition(case: &Case, edition: usize) -> bool {
    case.call == Call::Write && case.argument("edition").number() == edition
}

fn modes_differ(case: &Case) -> bool {
    let (modes, _) = modes(case);
    modes.iter().any(|mode| *mode != modes[0])
}

fn other_modes_behind(case: &Case) -> bool {
    let (_, behind) = modes(case);
    behind.iter().any(|mode| *mode != EXTEND)
}

fn too_short(case: &Case) -> bool {
    bytes_past_the_sheet(case).is_some_and(|past| past < 0)
}

/// By how many bytes the buffer that a sheet is written to is longer than the sheet.
fn bytes_past_the_sheet(case: &Case) -> Option<isize> {
    if case.call != Call::Write {
        return None;
    }
    let axes = case.argument("axes").number();
    let points = &case.argument("points").numbers()[..axes];
    let kinds = &case.argument("kinds").bytes()[..2 * axes];
    let length = length_of(case.argument("edition").number(), points, kinds);
    Some(case.argument("bytes").length() as isize - length as isize)
}

fn is_even(case: &Case) -> bool {
    case.call == Call::EvenQuery
}

/// Whether in extend direct arithmetic finds another cell on some axis than the search.
fn in_another_cell(case: &Case) -> bool {
    in_mode(case, EXTEND, |knots, point| {
        let step = knots[1] - knots[0];
        let direct = locate_lower_index_uniform(knots[0], step, knots.len(), point);
        direct != locate_lower_index(knots.into(), &point)
    })
}

/// Whether in extend a coordinate of an accepted query is 2^64 steps or more from the first knot.
fn far_above(case: &Case) -> bool {
    in_mode(case, EXTEND, |knots, point| {
        let quotient = (point - knots[0]) / (knots[1] - knots[0]);
        quotient >= 18_446_744_073_709_551_616.0
    })
}

/// Whether an axis is even, or is not, and no longer so with one of its knots moved by one unit.
fn at_the_tolerance(case: &Case, even: bool) -> bool {
    let is_even = |knots: &[f64]| validate_uniform_grid_epsilon(knots.into(), 0, None).is_ok();
    let mut axes = knots_by_axis(case).into_iter();
    axes.any(|knots| {
        let moved = |at: usize, knot: f64| {
            let mut moved = knots.to_vec();
            moved[at] = knot;
            is_even(&moved) != even
        };
        let mut upper = 2..knots.len().min(9);
        is_even(knots) == even
            && upper.any(|at| moved(at, knots[at].next_up()) || moved(at, knots[at].next_down()))
    })
}

/// Whether a query has on some axis this mode, and a coordinate that stands so to the knots.
fn in_mode(case: &Case, mode: u8, stands: fn(&[f64], f64) -> bool) -> bool {
    if !case.call.is_query() {
        return false;
    }
    let modes = case.argument("modes").bytes();
    let coordinates = coordinates(case);
    let axes = knots_by_axis(case).into_iter().zip(coordinates).zip(modes);
    let mut in_mode = axes.filter(|(_, own)| **own == mode);
    in_mode.any(|((knots, point), _)| stands(knots, point))
}

/// The first and the last knot.
fn ends(knots: &[f64]) -> (f64, f64) {
    (knots[0], knots[knots.len() - 1])
}

fn at_an_end(knots: &[f64], point: f64) -> bool {
    let (first, last) = ends(knots);
    point == first || point == last
}

fn just_inside(knots: &[f64], point: f64) -> bool {
    let (first, last) = ends(knots);
    point == first.next_up() || point == last.next_down()
}

fn just_outside(knots: &[f64], point: f64) -> bool {
    let (first, last) = ends(knots);
    point == first.next_down() || point == last.next_up()
}

fn at_the_other_zero(knots: &[f64], point: f64) -> bool {
    let (first, last) = ends(knots);
    let mut ends = [first, last].into_iter();
    ends.any(|end| point == end && point.to_bits() != end.to_bits())
}

fn below_and_above(knots: &[f64], point: f64) -> bool {
    let (first, last) = ends(knots);
    point < first && point > last
}

fn between_cells_on_every_axis(case: &Case) -> bool {
    let inner = |knots: &[f64], point: f64| knots[1..knots.len() - 1].contains(&point);
    let mut axes = knots_by_axis(case).into_iter().zip(coordinates(case));
    case.call.is_query() && axes.all(|(knots, point)| inner(knots, point))
}

fn at_a_knot_of_the_other_zero(case: &Case) -> bool {
    let other_zero = |knot: f64, point: f64| knot == point && knot.to_bits() != point.to_bits();
    let mut axes = knots_by_axis(case).into_iter().zip(coordinates(case));
    case.call.is_query()
        && axes.any(|(knots, point)| knots.iter().any(|knot| other_zero(*knot, point)))
}

fn is_quick(case: &Case) -> bool {
    case.call == Call::QuickQuery
}

/// Whether a quick query went as far as its knots.
fn is_searched(case: &Case, refusal: usize) -> bool {
    is_quick(case) && matches!(refusal, 0 | 8 | 10 | 18)
}

fn knots_finite(case: &Case) -> bool {
    let mut knots = case.argument("knots").floats().iter();
    knots.all(|knot| knot.is_finite())
}

/// Whether every step of the knots rises, by a finite number.
fn knots_rise(case: &Case) -> bool {
    let mut steps = steps(case).into_iter();
    steps.all(|(lower, upper)| lower < upper && (upper - lower).is_finite())
}

/// Whether the unchanged search has to be held to the last cell on some axis.
fn is_held(case: &Case) -> bool {
    let coordinates = coordinates(case);
    let mut axes = coordinates.iter().zip(knots_by_axis(case));
    axes.any(|(point, knots)| locate_lower_index(knots.into(), point) == knots.len() - 1)
}

/// How many cases have reached each edge.
#[derive(Debug)]
pub struct Reached {
    cases: [u64; COUNT],
    sheets: [u64; SHEET_COUNT],
    streams: [u64; STREAM_COUNT],
    tensors: [u64; TENSOR_COUNT],
}

impl Default for Reached {
    fn default() -> Self {
        Self {
            cases: [0; COUNT],
            sheets: [0; SHEET_COUNT],
            streams: [0; STREAM_COUNT],
            tensors: [0; TENSOR_COUNT],
        }
    }
}

impl Reached {
    /// Counts a case for each edge that it reaches. Those of a tensor that is verified are seen by what
    /// was answered.
    pub fn count(&mut self, case: &Case, answered: &Case, refusal: usize) {
        // The device has no knots and no sheet, and the sheet program is given what the reader is:
        // neither reaches any of these edges.
        if matches!(
            case.call,
            Call::CellValue | Call::CursorNext | Call::DeviceText | Call::SheetText
        ) {
            return;
        }
        if case.call.takes_a_sheet() {
            count_each(&mut self.sheets, &SHEET_EDGES, case, refusal);
        } else if case.call == Call::ReportText {
            count_each(&mut self.streams, &STREAM_EDGES, case, refusal);
        } else {
            count_each(&mut self.cases, &EDGES, case, refusal);
        }
        if case.call == Call::Verify {
            count_each(&mut self.tensors, &TENSOR_EDGES, answered, refusal);
        }
    }

    /// Every edge, and how many cases have reached it.
    pub fn edges(&self) -> impl Iterator<Item = (&'static str, u64)> + '_ {
        let edges = EDGES.iter().chain(&SHEET_EDGES).chain(&STREAM_EDGES);
        let cases = self.cases.iter().chain(&self.sheets).chain(&self.streams);
        let edges = edges.chain(&TENSOR_EDGES).map(|edge| edge.name);
        edges.zip(cases.chain(&self.tensors).copied())
    }
}

/// Counts a case for each edge of a list.
fn count_each(cases: &mut [u64], edges: &[Edge], case: &Case, refusal: usize) {
    for (cases, edge) in cases.iter_mut().zip(edges) {
        *cases += u64::from((edge.is_reached)(case, refusal));
    }
}

/// The slices of a fixed length in a call with axes.
const FIXED: [(&str, usize); 13] = [
    ("points", 4),
    ("kinds", 8),
    ("values", 8),
    ("modes", 4),
    ("place", 4),
    ("value", 1),
    ("labels", 4),
    ("lanes", 1),
    ("uneven", 2),
    ("found", 3),
    ("length", 1),
    ("directions", 4),
    ("indices", 4),
];

fn a_fixed_length_off(case: &Case) -> bool {
    let present = FIXED.iter().filter(|(name, _)| case.has(name));
    let mut lengths = present.map(|(name, length)| (case.argument(name).length(), length));
    lengths.any(|(given, length)| given != *length)
}

/// Whether the first axis of a call with axes and kinds has Periodic at one end only, and the only
/// length that is off is that of the knots.
fn no_kinds_beside_a_length_off(case: &Case) -> bool {
    let has_kinds = matches!(
        case.call,
        Call::Build | Call::Change | Call::Verify | Call::Write
    );
    if !has_kinds || a_fixed_length_off(case) {
        return false;
    }
    let kinds = case.argument("kinds").bytes();
    let axes = case.argument("axes").number();
    let points = &case.argument("points").numbers()[..axes];
    let knots = case.argument("knots").length();
    (kinds[0] == 3) != (kinds[1] == 3) && knots != points.iter().sum::<usize>()
}

/// Whether a call with a refusal has looked at all that it was given.
fn begins_work(refusal: usize) -> bool {
    refusal == 0 || refusal == 10
}

/// The knots of each axis of a case whose lengths are right.
fn knots_by_axis(case: &Case) -> Vec<&[f64]> {
    let mut rest = case.argument("knots").floats();
    if !case.has("axes") {
        return vec![rest];
    }
    let points = &case.argument("points").numbers()[..case.argument("axes").number()];
    let mut by_axis = Vec::new();
    for count in points {
        let (axis, behind) = rest.split_at(*count);
        by_axis.push(axis);
        rest = behind;
    }
    by_axis
}

fn coordinates(case: &Case) -> Vec<f64> {
    match case.call {
        Call::Curve | Call::LocateAxis | Call::LocateStepIndex => {
            vec![case.argument("point").float()]
        }
        Call::Stepped => case.argument("coordinates").floats().to_vec(),
        call if call.is_query() => case.argument("coordinates").floats().to_vec(),
        _ => Vec::new(),
    }
}

fn beside_a_knot(case: &Case, neighbour: fn(f64) -> f64) -> bool {
    let coordinates = coordinates(case);
    let mut axes = coordinates.iter().zip(knots_by_axis(case));
    axes.any(|(coordinate, knots)| knots.iter().any(|knot| neighbour(*knot) == *coordinate))
}

fn one_long_axis(case: &Case) -> bool {
    let axes = knots_by_axis(case);
    axes.len() == 1 && (65..=254).contains(&axes[0].len())
}

fn value_of(case: &Case, end: usize) -> f64 {
    case.argument("values").floats()[end]
}

/// The ends whose values are so large that few operations on them stay finite.
fn huge_ends(case: &Case) -> Vec<usize> {
    let mut ends = numbered_ends(case);
    ends.retain(|end| value_of(case, *end).abs() > 1e300);
    ends
}

fn a_subnormal_end(case: &Case) -> bool {
    let mut ends = numbered_ends(case).into_iter();
    ends.any(|end| value_of(case, end).is_subnormal())
}

/// Whether the neighbour of a huge end value, by its magnitude, has a refusal.
fn neighbour_refused_by(case: &Case, neighbour: fn(f64) -> f64, refusal: usize) -> bool {
    huge_ends(case).into_iter().any(|end| {
        let value = value_of(case, end);
        let beside = neighbour(value.abs()).copysign(value);
        beside.is_finite() && refusal_with(case, end, beside) == refusal
    })
}

/// The neighbouring knots of every axis.
fn steps(case: &Case) -> Vec<(f64, f64)> {
    let axes = knots_by_axis(case).into_iter();
    axes.flat_map(|knots| knots.windows(2).map(|pair| (pair[0], pair[1])))
        .collect()
}

fn a_step_at_the_edge(case: &Case) -> bool {
    let mut steps = steps(case).into_iter();
    steps.any(|(lower, upper)| (upper.next_up() - lower).is_infinite())
}

fn a_step_past_the_edge(case: &Case) -> bool {
    let mut steps = steps(case).into_iter();
    steps.any(|(lower, upper)| {
        (upper - lower).is_infinite() && (upper.next_down() - lower).is_finite()
    })
}

fn a_long_tensor(case: &Case) -> bool {
    case.has("tensor") && case.argument("tensor").length() > 3900
}

/// Whether a point steps in a direction on some axis, and lies so among the knots there.
fn a_step(case: &Case, direction: u8, lies: fn(&[f64], f64) -> bool) -> bool {
    let directions = match case.call {
        Call::LocateStepIndex => vec![case.argument("direction").number() as u8],
        Call::Stepped => case.argument("directions").bytes().to_vec(),
        _ => return false,
    };
    let coordinates = coordinates(case).into_iter().zip(directions);
    let mut axes = knots_by_axis(case).into_iter().zip(coordinates);
    axes.any(|(knots, (point, given))| given == direction && lies(knots, point))
}

fn last(knots: &[f64]) -> f64 {
    knots[knots.len() - 1]
}

/// Whether a case of steps has a number that is no direction.
fn no_direction(case: &Case) -> bool {
    match case.call {
        Call::LocateStepIndex => case.argument("direction").number() > 1,
        Call::Stepped | Call::SteppedMany => {
            let axes = case.argument("axes").number();
            let directions = case.argument("directions").bytes();
            directions.iter().take(axes).any(|number| *number > 1)
        }
        _ => false,
    }
}
