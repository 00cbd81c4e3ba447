//! Measures the archive beside the Rust's functions on the same inputs: the
//! instructions of one call, its nanoseconds, and the stack bytes that each
//! exported call reaches.

mod inputs;
mod instructions;
#[cfg(limit)]
mod limit;
mod lines;
mod nanoseconds;
#[cfg_attr(not(limit), allow(dead_code))]
mod points;
mod shapes;
mod sheet;
mod stack;
mod table;
#[cfg(test)]
mod tests;

use ::hullashlar;
use inputs::Inputs;
#[cfg(limit)]
use limit::{asked, lines as limit_lines};
use lines::{lines, Line};
use points::Asked;
use std::env;

fn main() {
    let inputs = Inputs::new();
    let mut lines = lines(&inputs);
    let first_of_the_limit = lines.len();
    lines.extend(limit_lines(&inputs));
    lines.iter_mut().for_each(check_same_outcome);
    let asked = asked(&inputs);
    if env::args().nth(1).as_deref() == Some(instructions::COUNTED_CALLS) {
        let of_lines = lines.into_iter().map(|line| [line.ours, line.other]);
        let of_points = asked.into_iter().map(Asked::works);
        instructions::make_counted_calls(of_lines.chain(of_points).flatten());
        return;
    }
    let instructions = instructions::count(lines.len() + asked.len());
    let nanoseconds: Vec<_> = lines.iter_mut().map(nanoseconds::medians).collect();
    let rows = table::rows(&lines, &instructions, &nanoseconds);
    table::print_lines(&rows[..first_of_the_limit]);
    table::print_limit(&rows[first_of_the_limit..]);
    let asked: Vec<_> = asked.into_iter().map(Asked::timed).collect();
    table::print_points(&asked, &instructions[lines.len()..]);
    table::print_stacks(&stack::stacks());
}

/// Where the limit is not at hand, it has no lines.
#[cfg(not(limit))]
fn limit_lines(_: &Inputs) -> [Line<'_>; 0] {
    []
}

#[cfg(not(limit))]
fn asked(_: &Inputs) -> [Asked<'_>; 0] {
    []
}

/// What is compared must do the same work: both sides end in the same bits.
fn check_same_outcome(line: &mut Line) {
    let (ours, other) = ((line.ours)(), (line.other)());
    assert_eq!(ours.to_bits(), other.to_bits(), "{}", line.name);
}
