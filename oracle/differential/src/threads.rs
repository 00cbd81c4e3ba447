//! The same cases on several threads at once, each on slices of its own.

use crate::archive::Archive;
use crate::is_good;
use cases::{compare_all, Plan};
use std::thread;

/// Runs a plan on so many threads at once; whether nothing differs on any, and all have seen the same.
pub fn at_once(plan: &Plan, threads: u64) -> bool {
    let reports = thread::scope(|scope| {
        let started: Vec<_> = (0..threads)
            .map(|_| scope.spawn(|| compare_all(&Archive, plan)))
            .collect();
        let reports = started.into_iter().map(|thread| thread.join());
        reports
            .collect::<Result<Vec<_>, _>>()
            .expect("no thread ends early")
    });
    let texts: Vec<String> = reports.iter().map(ToString::to_string).collect();
    let first = texts.first().expect("there is a thread");
    print!("{first}");
    let same = texts.iter().all(|text| text == first);
    let good = reports.iter().all(|report| is_good(report, plan));
    let calls: u64 = reports.iter().map(|report| report.total().compared).sum();
    println!(
        "{threads} threads at once, {calls} calls, the same seen on each: {}",
        if same { "yes" } else { "NO" }
    );
    same && good
}
