//! Every call that is asked at points, ours beside the limit's.

use super::point_calls::*;
use crate::inputs::{Inputs, Surface};
use crate::points::{Asked, Call, Way, MANY, NONE, ONE};

/// Every call that is asked at points, and beside these the calls of one axis that are given none.
pub fn asked(inputs: &Inputs) -> Vec<Asked<'_>> {
    let mut all = queries(inputs.surfaces());
    all.extend(queries_of_even_axes(inputs.even_surfaces()));
    all.extend(on_one_axis([&inputs.line_of_16, &inputs.line_of_256]));
    all.extend(steps(inputs.surfaces()));
    all.extend(in_whole_numbers(&inputs.line_of_256));
    all
}

/// A call on each of some surfaces.
fn on_each<'a, const N: usize>(
    name: &str,
    way: Way,
    surfaces: [&'a Surface; N],
    sides: impl Fn(&'a Surface) -> [Call<'a>; 2],
) -> [Asked<'a>; N] {
    surfaces.map(|surface| Asked {
        name: named(name, surface),
        surface,
        way,
        sides: sides(surface),
    })
}

/// A call and the points of its axes.
fn named(call: &str, surface: &Surface) -> String {
    let points: Vec<String> = surface.points().iter().map(usize::to_string).collect();
    format!("{call}, {}", points.join("×"))
}

fn queries(surfaces: [&Surface; 5]) -> Vec<Asked<'_>> {
    let mut all = Vec::new();
    all.extend(on_each("query", ONE, surfaces, |surface| {
        [hullashlar_query, limit_query].map(|call| one(surface, tensor(surface), call))
    }));
    all.extend(on_each("quick query", ONE, surfaces, |surface| {
        [hullashlar_quick_query, limit_quick_query].map(|call| one(surface, tensor(surface), call))
    }));
    all.extend(on_each("many quick", MANY, surfaces, |surface| {
        [hullashlar_quick_queries, limit_quick_query_many]
            .map(|call| many(surface, tensor(surface), MANY.at_once, call))
    }));
    all
}

/// The limit has no profile: beside ours is its even query, which looks at the same knots and answers besides.
fn queries_of_even_axes(surfaces: [&Surface; 5]) -> Vec<Asked<'_>> {
    let mut all = Vec::new();
    all.extend(on_each("even query", ONE, surfaces, |surface| {
        [hullashlar_even_query, limit_even_query].map(|call| even(surface, call))
    }));
    all.extend(on_each("direct query", ONE, surfaces, |surface| {
        [hullashlar_direct_query, limit_direct_query]
            .map(|call| one(surface, tensor(surface), call))
    }));
    all.extend(on_each("many direct", MANY, surfaces, |surface| {
        [hullashlar_direct_queries, limit_direct_query_many]
            .map(|call| many(surface, tensor(surface), MANY.at_once, call))
    }));
    let profiles = "even profile beside the limit's even query";
    all.extend(on_each(profiles, ONE, surfaces, |surface| {
        let ours = profile(surface, hullashlar_even_profile);
        [ours, without_its_value(even(surface, limit_even_query))]
    }));
    all
}

fn on_one_axis(lines: [&Surface; 2]) -> Vec<Asked<'_>> {
    let mut all = Vec::new();
    all.extend(on_each("curve", ONE, lines, |line| {
        [hullashlar_curve, limit_curve].map(|call| curve(line, call))
    }));
    all.extend(on_each("knot slopes", NONE, lines, |line| {
        [hullashlar_slopes, limit_slopes].map(|call| slopes(line, call))
    }));
    all.extend(on_each("moments", NONE, lines, |line| {
        [hullashlar_moments, limit_moments].map(|call| moments(line, call))
    }));
    all.extend(on_each("exact index", ONE, lines, |line| {
        [hullashlar_exact_index, limit_exact_index].map(|call| exact(line, call))
    }));
    all.extend(on_each("location", ONE, lines, |line| {
        [hullashlar_locate_axis, limit_locate_axis].map(|call| location(line, call))
    }));
    all.extend(on_each("index of a step", ONE, lines, |line| {
        [hullashlar_locate_step_index, limit_locate_step_index].map(|call| step(line, call))
    }));
    all
}

/// The limit steps at one point by a call: beside ours of many points are so many of its calls.
fn steps(surfaces: [&Surface; 5]) -> Vec<Asked<'_>> {
    let mut all = Vec::new();
    all.extend(on_each("stepped", ONE, surfaces, |surface| {
        [hullashlar_stepped, limit_stepped].map(|call| one(surface, samples(surface), call))
    }));
    let steps = "many stepped beside the limit's stepped";
    all.extend(on_each(steps, MANY, surfaces, |surface| {
        let limit = one(surface, samples(surface), limit_stepped);
        let ours = hullashlar_stepped_many;
        [
            many(surface, samples(surface), MANY.at_once, ours),
            one_by_one(surface, limit),
        ]
    }));
    all
}

/// The points say which position of a cell is asked for, and which cell of a curve.
fn in_whole_numbers(line: &Surface) -> [Asked<'_>; 3] {
    let asked = |name: &str, sides| Asked {
        name: name.into(),
        surface: line,
        way: ONE,
        sides,
    };
    let cells = [hullashlar_cell_value, limit_cell_value].map(cell);
    let cursors = |cells| {
        [hullashlar_cursor_next, limit_cursor_next].map(|call: CursorNext| cursor(cells, call))
    };
    [
        asked("one cell in whole numbers", cells),
        asked("step of a cursor, 1 cell", cursors(1)),
        asked("step of a cursor, 255 cells", cursors(255)),
    ]
}
