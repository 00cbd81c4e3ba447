//! Rounds of every kind of case, each of another seed, for as long as is asked.

use crate::archive::Archive;
use crate::is_good;
use cases::{compare_more, Plan, Random, Report, KINDS};
use std::time::{Duration, Instant, SystemTime};

/// About how many calls of a kind a round has, and how many runs of a kind that runs a program.
const CALLS: u64 = 20_000;
const RUNS: u64 = 300;

/// Goes on until the seconds are over and the round is at its end, or something differs. The seeds
/// of the rounds follow from a first one, or where that is 0 from the time. Whether nothing
/// differed, and every refusal of every kind was seen.
pub fn soak(seed: u64, seconds: u64) -> bool {
    let began = Instant::now();
    let mut seeds = Random::new(if seed == 0 { from_the_time() } else { seed });
    let mut report = Report::default();
    let mut rounds = 0;
    let plan = loop {
        let plan = round(seeds.word(), rounds);
        rounds += 1;
        println!("round {rounds}: seed {}", plan.seed);
        compare_more(&Archive, &plan, &mut report);
        let over = began.elapsed() >= Duration::from_secs(seconds);
        if over || report.total().differences > 0 {
            break plan;
        }
    };
    print!("{report}");
    let good = is_good(&report, &plan) && all_refusals_seen(&report);
    if report.total().differences > 0 {
        println!("a case KIND NUMBER of seed N is run alone by: make soak SEED=N CASE=KIND:NUMBER");
    }
    let (seconds, total) = (began.elapsed().as_secs(), report.total());
    println!(
        "soak: {rounds} rounds in {seconds} s, {} calls, {} differences",
        total.compared, total.differences
    );
    good
}

fn from_the_time() -> u64 {
    let since = SystemTime::now().duration_since(SystemTime::UNIX_EPOCH);
    since.expect("the clock is past 1970").as_nanos() as u64
}

/// The cases of a round. They begin behind those of the round before, and the first behind the small
/// sheets that every comparison begins with, so that what follows from a case's number alone is not
/// looked at twice.
fn round(seed: u64, number: u64) -> Plan {
    let mut plan = Plan::of_each_kind(seed, CALLS);
    for kind in KINDS.into_iter().filter(|kind| kind.runs_a_program()) {
        plan.cases[kind as usize] = RUNS;
    }
    plan.first = (number + 1) * CALLS;
    plan
}

fn all_refusals_seen(report: &Report) -> bool {
    let missing = report.not_refused();
    for (kind, number) in &missing {
        println!("NEVER SEEN of {}: refusal {number}", kind.name());
    }
    missing.is_empty()
}
