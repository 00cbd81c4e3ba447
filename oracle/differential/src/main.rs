//! Holds the archive against the reading of the rules, bit for bit.

mod archive;
mod guarded;
mod program;
#[cfg(target_arch = "x86_64")]
mod settings;
mod soak;
#[cfg(test)]
mod tests;
mod threads;

use archive::Archive;
use cases::{compare_all, Kind, Plan, Report, KINDS};
use std::collections::VecDeque;
use std::env;
use std::process::ExitCode;

/// The seed where none is given.
const SEED: u64 = 20_240_917;

/// How many calls of each kind where no number is given.
const CASES: u64 = 10_000;

const USAGE: &str = "differential [--seed N] [--cases N] [--KIND N]... [--soak N | --threads N | --settings N | --case KIND:N]
  --seed N       the seed of the generated cases
  --cases N      about how many calls of each kind
  --KIND N       how many cases of one kind, by its name in the report; or how often the worked
                 examples are run: example
  --soak N       rounds for so many seconds, each of another seed
  --threads N    the same cases on so many threads at once
  --settings N   so many calls of each kind under every float setting of the processor
  --case KIND:N  one case alone, by its kind and its number
Fails where there is a difference, nothing was compared of a kind whose number is not 0,
or a refusal stands in no stream.";

/// What is done with a plan.
enum Task {
    Compare,
    Soak {
        seconds: u64,
    },
    Threads {
        number: u64,
    },
    #[cfg(target_arch = "x86_64")]
    Settings {
        calls: u64,
    },
}

fn main() -> ExitCode {
    let (task, plan) = match told(env::args().skip(1).collect()) {
        Ok(told) => told,
        Err(fault) => {
            eprintln!("{fault}\n{USAGE}");
            return ExitCode::from(2);
        }
    };
    guarded::name_the_case_at_a_fault();
    let good = match task {
        Task::Compare => compare(&plan),
        Task::Soak { seconds } => soak::soak(plan.seed, seconds),
        Task::Threads { number } => threads::at_once(&plan, number),
        #[cfg(target_arch = "x86_64")]
        Task::Settings { calls } => settings::compare_under_each(plan.seed, calls),
    };
    if good {
        ExitCode::SUCCESS
    } else {
        ExitCode::FAILURE
    }
}

/// Compares what a plan has, and prints what was seen; whether nothing differs and nothing is left out.
fn compare(plan: &Plan) -> bool {
    println!("seed {}", plan.seed);
    let report = compare_all(&Archive, plan);
    print!("{report}");
    is_good(&report, plan)
}

/// Whether nothing differs, and all that a plan has was compared; prints what was not.
fn is_good(report: &Report, plan: &Plan) -> bool {
    let not_compared = report.not_compared(plan);
    for kind in &not_compared {
        println!("NOTHING COMPARED of {}", kind.name());
    }
    let not_in_streams = report.not_in_streams(plan);
    for number in &not_in_streams {
        println!("NOTHING COMPARED of streams with refusal {number}");
    }
    report.total().differences == 0 && not_compared.is_empty() && not_in_streams.is_empty()
}

/// The task, the seed and the counts from the arguments; later ones count.
fn told(mut arguments: VecDeque<String>) -> Result<(Task, Plan), String> {
    let mut plan = Plan::of_each_kind(SEED, CASES);
    let mut task = Task::Compare;
    while let Some(name) = arguments.pop_front() {
        let word = arguments
            .pop_front()
            .ok_or(format!("{name} wants a number"))?;
        if name == "--case" {
            let (kind, number) = word.split_once(':').ok_or(format!("{word} is no case"))?;
            plan = Plan::of_case(plan.seed, kind_named(kind)?, number_in(number)?);
            continue;
        }
        let number = number_in(&word)?;
        match name.as_str() {
            "--seed" => plan.seed = number,
            "--cases" => plan = Plan::of_each_kind(plan.seed, number),
            "--soak" => task = Task::Soak { seconds: number },
            "--threads" => task = Task::Threads { number },
            #[cfg(target_arch = "x86_64")]
            "--settings" => task = Task::Settings { calls: number },
            _ => {
                let kind = name.strip_prefix("--").unwrap_or(&name);
                plan.cases[kind_named(kind)? as usize] = number;
            }
        }
    }
    Ok((task, plan))
}

fn number_in(word: &str) -> Result<u64, String> {
    word.parse().map_err(|_| format!("{word} is no number"))
}

fn kind_named(name: &str) -> Result<Kind, String> {
    let named = KINDS.into_iter().find(|kind| kind.name() == name);
    named.ok_or(format!("{name} is no kind of case"))
}
