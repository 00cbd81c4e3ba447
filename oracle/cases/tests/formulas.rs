//! The formulas of docs/RULES.md, written out as they stand there, give the bits of
//! the unchanged functions. The two solves are the unchanged ones.

mod altered;

use altered::{differences, Altered};
use cases::{Call, Case, Kind};
use ninterp_unchanged::{cyclic_thomas, thomas};

/// The lists that the rules share.
struct Lists {
    /// The last index.
    n: usize,
    /// The steps.
    h: Vec<f64>,
    /// The slopes of the chords.
    s: Vec<f64>,
    /// Six times the differences of neighbouring slopes.
    u: Vec<f64>,
}

fn lists(x: &[f64], y: &[f64]) -> Lists {
    let n = x.len() - 1;
    let h: Vec<f64> = (0..n).map(|i| x[i + 1] - x[i]).collect();
    let s: Vec<f64> = (0..n).map(|i| (y[i + 1] - y[i]) / h[i]).collect();
    let u = (0..n - 1).map(|k| 6.0 * (s[k + 1] - s[k])).collect();
    Lists { n, h, s, u }
}

/// A row at an end: diagonal, neighbour and right side.
type Row = (f64, f64, f64);

fn lower_row(lists: &Lists, kind: u8, v: f64) -> Row {
    let Lists { h, s, u, .. } = lists;
    match kind {
        0 => (
            (h[0] + h[1]) * (h[0] + 2.0 * h[1]),
            h[1] * h[1] - h[0] * h[0],
            h[1] * u[0],
        ),
        1 => (2.0 * h[0], h[0], 6.0 * (s[0] - v)),
        _ => (1.0, 0.0, v),
    }
}

fn upper_row(lists: &Lists, kind: u8, v: f64) -> Row {
    let Lists { n, h, s, u } = lists;
    let (last, before) = (n - 1, n.wrapping_sub(2));
    match kind {
        0 => (
            (h[last] + h[before]) * (h[last] + 2.0 * h[before]),
            h[before] * h[before] - h[last] * h[last],
            h[before] * u[before],
        ),
        1 => (2.0 * h[last], h[last], 6.0 * (v - s[last])),
        _ => (1.0, 0.0, v),
    }
}

/// The unknowns that are not dropped, from the first knot that has one.
fn solve_rows(lists: &Lists, kinds: &[u8], values: &[f64]) -> Vec<f64> {
    let Lists { n, h, u, .. } = lists;
    let lower = lower_row(lists, kinds[0], values[0]);
    let upper = upper_row(lists, kinds[1], values[1]);
    let (mut below, mut diagonal) = (Vec::new(), vec![lower.0]);
    let (mut above, mut right_side) = (vec![lower.1], vec![lower.2]);
    let first = if kinds[0] == 0 { 2 } else { 1 };
    let end = if kinds[1] == 0 { n - 1 } else { *n };
    for i in first..end {
        below.push(h[i - 1]);
        diagonal.push(2.0 * (h[i - 1] + h[i]));
        above.push(h[i]);
        right_side.push(u[i - 1]);
    }
    below.push(upper.1);
    diagonal.push(upper.0);
    right_side.push(upper.2);
    thomas(&below, &diagonal, &above, &right_side)
}

/// Moments with the dropped ones put back.
fn moments_of_ends(lists: &Lists, kinds: &[u8], values: &[f64]) -> Vec<f64> {
    let Lists { n, h, .. } = lists;
    let mut m = solve_rows(lists, kinds, values);
    let last = m.len() - 1;
    let (h0, h1) = (h[0], h.get(1).copied().unwrap_or(0.0));
    let dropped_below = ((h0 + h1) * m[0] - h0 * m[1]) / h1;
    if kinds[1] == 0 {
        let (h0, h1) = (h[n - 1], h[n - 2]);
        m.push(((h0 + h1) * m[last] - h0 * m[last - 1]) / h1);
    }
    if kinds[0] == 0 {
        m.insert(0, dropped_below);
    }
    m
}

fn moments_of_period(lists: &Lists) -> Vec<f64> {
    let Lists { n, h, s, u } = lists;
    if *n == 1 {
        return vec![0.0; 2];
    }
    let mut diagonal = vec![2.0 * (h[n - 1] + h[0])];
    diagonal.extend((1..*n).map(|k| 2.0 * (h[k - 1] + h[k])));
    let mut right_side = vec![6.0 * (s[0] - s[n - 1])];
    right_side.extend(u);
    let beside = &h[..n - 1];
    let mut m = cyclic_thomas(beside, &diagonal, beside, &right_side, h[n - 1]);
    m.push(m[0]);
    m
}

fn moments_again(given: &Case, answered: &mut Case) {
    let (x, y) = (
        given.argument("knots").floats(),
        given.argument("samples").floats(),
    );
    let kinds = given.argument("kinds").bytes();
    let lists = lists(x, y);
    let moments = if kinds[0] == 3 {
        moments_of_period(&lists)
    } else {
        moments_of_ends(&lists, kinds, given.argument("values").floats())
    };
    let slots = answered.argument_mut("moments").floats_mut();
    slots.copy_from_slice(&moments);
}

#[test]
fn moments_are_as_the_rules_word_them() {
    let again = Altered {
        call: Call::Moments,
        alter: moments_again,
    };
    assert_eq!(differences(&again, Kind::Moments), 0);
}

fn slopes_again(given: &Case, answered: &mut Case) {
    let (x, y) = (
        given.argument("knots").floats(),
        given.argument("samples").floats(),
    );
    let m = given.argument("moments").floats();
    let Lists { n, h, s, .. } = lists(x, y);
    let slopes = answered.argument_mut("slopes").floats_mut();
    for i in 0..n {
        slopes[i] = s[i] - h[i] * (2.0 * m[i] + m[i + 1]) / 6.0;
    }
    slopes[n] = s[n - 1] + h[n - 1] * (m[n - 1] + 2.0 * m[n]) / 6.0;
}

#[test]
fn slopes_are_as_the_rules_word_them() {
    let again = Altered {
        call: Call::Slopes,
        alter: slopes_again,
    };
    assert_eq!(differences(&again, Kind::Slopes), 0);
}
