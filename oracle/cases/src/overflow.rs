//! Numbers at the edge of overflow: the last that stays finite, and the next.

use crate::case::{Call, Calls, Case};
use crate::random::Random;
use crate::reading_calls::Reading;

/// The last pattern of a number above zero that does not overflow, where the first
/// does not and the last does.
fn last_finite(overflows: impl Fn(f64) -> bool) -> u64 {
    let (mut finite, mut past) = (0, f64::MAX.to_bits());
    while finite + 1 < past {
        let middle = finite + (past - finite) / 2;
        if overflows(f64::from_bits(middle)) {
            past = middle;
        } else {
            finite = middle;
        }
    }
    finite
}

/// The largest upper knot of a step from a knot far below zero, and the next one,
/// whose step overflows.
pub fn largest_upper_knot(lower: f64) -> [f64; 2] {
    let last = last_finite(|upper| (upper - lower).is_infinite());
    [f64::from_bits(last), f64::from_bits(last + 1)]
}

/// The slots of the end values that a case reads.
pub fn numbered_ends(case: &Case) -> Vec<usize> {
    let in_use = match case.call {
        Call::Moments => 2,
        Call::Build | Call::Change | Call::Verify => 2 * case.argument("axes").number(),
        _ => 0,
    };
    let numbered = |end: &usize| matches!(case.argument("kinds").bytes()[*end], 1 | 2);
    (0..in_use).filter(numbered).collect()
}

/// The refusal of a case whose end has another value.
pub fn refusal_with(case: &Case, end: usize, value: f64) -> usize {
    let mut case = case.clone();
    case.argument_mut("values").floats_mut()[end] = value;
    Reading.run(&mut case).expect("the reading answers all")
}

/// Gives an end of an accepted case the largest value whose outcome stays finite,
/// or the next one.
pub fn take_an_end_to_the_edge(random: &mut Random, case: &mut Case) {
    let ends = numbered_ends(case);
    if ends.is_empty() {
        return;
    }
    let end = random.pick(&ends);
    let sign = random.pick(&[1.0, -1.0]);
    let overflows = |value: f64| refusal_with(case, end, sign * value) == 10;
    if overflows(0.0) || !overflows(f64::MAX) {
        return;
    }
    let last = last_finite(overflows);
    let pattern = random.pick(&[last, last + 1]);
    case.argument_mut("values").floats_mut()[end] = sign * f64::from_bits(pattern);
}
