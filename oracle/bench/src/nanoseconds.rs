//! Nanoseconds of one call: the median over many rounds, the two sides in turn.

use crate::lines::{Line, Work};
use std::hint::black_box;
use std::time::{Duration, Instant};

/// How often each side has its turn.
const ROUNDS: usize = 301;

/// A turn makes as many calls as fill about this time.
const TURN: Duration = Duration::from_micros(100);

/// The medians of both sides.
pub fn medians(line: &mut Line) -> [f64; 2] {
    let calls = [
        calls_in_a_turn(&mut line.ours),
        calls_in_a_turn(&mut line.other),
    ];
    let mut times = [Vec::new(), Vec::new()];
    for _ in 0..ROUNDS {
        times[0].push(nanoseconds_of_a_call(&mut line.ours, calls[0]));
        times[1].push(nanoseconds_of_a_call(&mut line.other, calls[1]));
    }
    times.map(median)
}

fn calls_in_a_turn(work: &mut Work) -> u32 {
    let mut calls = 1;
    while time(work, calls) < TURN {
        calls *= 2;
    }
    calls
}

fn nanoseconds_of_a_call(work: &mut Work, calls: u32) -> f64 {
    time(work, calls).as_nanos() as f64 / f64::from(calls)
}

fn time(work: &mut Work, calls: u32) -> Duration {
    let begin = Instant::now();
    for _ in 0..calls {
        black_box(work());
    }
    begin.elapsed()
}

fn median(mut times: Vec<f64>) -> f64 {
    times.sort_by(f64::total_cmp);
    times[times.len() / 2]
}
