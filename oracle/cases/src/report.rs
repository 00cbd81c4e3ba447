//! What a run has seen, and how a difference is printed.

use crate::case::Case;
use crate::comparison::Plan;
use crate::generator::{Kind, KINDS};
use crate::lent::GUARDS;
use crate::reached::Reached;
use crate::stream::{PASSED_OVER, STOPPING};
use std::fmt::{self, Write};

/// How many differing cases of a kind are printed in full.
const PRINTED: u64 = 2;

/// The points of the periodic axes that are counted: those of one interval, which
/// has no rows to solve, and of two, the fewest that have.
pub const PERIODIC_POINTS: [usize; 2] = [2, 3];

/// One more than the largest number of a refusal.
pub const NUMBERS: usize = 24;

/// What was seen of one kind of case.
#[derive(Debug, Clone, Default)]
pub struct Counts {
    /// Calls made to the reading.
    pub calls: u64,
    /// Calls whose answer was compared.
    pub compared: u64,
    /// How often each refusal was given; number 0 is acceptance.
    pub refusals: [u64; NUMBERS],
    /// Periodic axes of accepted calls, by their points.
    pub periodic: [u64; PERIODIC_POINTS.len()],
    /// How many streams have a sheet that is refused by each number and passed over.
    pub passed_over: [u64; NUMBERS],
    /// Places at which a surface was asked, and its answers held against the sample.
    pub places: u64,
    /// Compared calls that were not the same.
    pub differences: u64,
}

/// What was seen of every kind, the edges that were reached, and the first
/// differing cases.
#[derive(Debug)]
pub struct Report {
    counts: [Counts; KINDS.len()],
    pub(crate) reached: Reached,
    differing: Vec<String>,
}

impl Default for Report {
    /// Nothing was seen yet.
    fn default() -> Self {
        Self {
            counts: KINDS.map(|_| Counts::default()),
            reached: Reached::default(),
            differing: Vec::new(),
        }
    }
}

impl Report {
    /// What was seen of one kind.
    pub fn of(&self, kind: Kind) -> &Counts {
        &self.counts[kind as usize]
    }

    pub(crate) fn of_mut(&mut self, kind: Kind) -> &mut Counts {
        &mut self.counts[kind as usize]
    }

    /// What was seen of all kinds together.
    pub fn total(&self) -> Counts {
        let mut total = Counts::default();
        for counts in &self.counts {
            total.calls += counts.calls;
            total.compared += counts.compared;
            total.differences += counts.differences;
            total.places += counts.places;
            for (sum, seen) in total.refusals.iter_mut().zip(counts.refusals) {
                *sum += seen;
            }
            for (sum, seen) in total.passed_over.iter_mut().zip(counts.passed_over) {
                *sum += seen;
            }
            for (sum, seen) in total.periodic.iter_mut().zip(counts.periodic) {
                *sum += seen;
            }
        }
        total
    }

    /// Every edge that cases are to reach, and how many have.
    pub fn reached(&self) -> impl Iterator<Item = (&'static str, u64)> + '_ {
        self.reached.edges()
    }

    /// The kinds that a plan has and of which nothing was compared.
    pub fn not_compared(&self, plan: &Plan) -> Vec<Kind> {
        let mut kinds = KINDS.to_vec();
        kinds.retain(|kind| plan.cases[*kind as usize] > 0 && self.of(*kind).compared == 0);
        kinds
    }

    /// The refusals of each kind that none of its calls was given.
    pub fn not_refused(&self) -> Vec<(Kind, usize)> {
        let refusals = |kind: Kind| kind.refusals().iter().map(move |number| (kind, *number));
        let all = KINDS.into_iter().flat_map(refusals);
        all.filter(|(kind, number)| self.of(*kind).refusals[*number] == 0)
            .collect()
    }

    /// The refusals that no stream of a plan has, though the plan has streams.
    pub fn not_in_streams(&self, plan: &Plan) -> Vec<usize> {
        if plan.cases[Kind::Report as usize] == 0 {
            return Vec::new();
        }
        let counts = self.of(Kind::Report);
        let stopping = STOPPING.map(|number| (number, counts.refusals[number]));
        let passed_over = PASSED_OVER.map(|number| (number, counts.passed_over[number]));
        let numbers = stopping.into_iter().chain(passed_over);
        let missing = numbers.filter(|(_, streams)| *streams == 0);
        missing.map(|(number, _)| number).collect()
    }

    pub(crate) fn difference(&mut self, kind: Kind, text: impl FnOnce() -> String) {
        self.of_mut(kind).differences += 1;
        if self.of(kind).differences <= PRINTED {
            self.differing.push(text());
        }
    }
}

impl fmt::Display for Report {
    fn fmt(&self, formatter: &mut fmt::Formatter<'_>) -> fmt::Result {
        for text in &self.differing {
            writeln!(formatter, "{text}")?;
        }
        for kind in KINDS {
            write_counts(formatter, kind.name(), self.of(kind))?;
        }
        write_counts(formatter, "all", &self.total())?;
        for (edge, cases) in self.reached() {
            writeln!(formatter, "reached by {cases} calls: {edge}")?;
        }
        Ok(())
    }
}

fn write_counts(formatter: &mut fmt::Formatter<'_>, name: &str, counts: &Counts) -> fmt::Result {
    let accepted = counts.refusals[0];
    let share = 100 * accepted / counts.calls.max(1);
    write!(
        formatter,
        "{name}: {} calls, {accepted} accepted ({share} in 100), refused",
        counts.calls
    )?;
    write_numbers(formatter, &counts.refusals)?;
    if counts.passed_over.iter().any(|seen| *seen > 0) {
        write!(formatter, "; passed over")?;
        write_numbers(formatter, &counts.passed_over)?;
    }
    if counts.periodic.iter().any(|seen| *seen > 0) {
        write!(formatter, "; periodic axes")?;
        for (points, seen) in PERIODIC_POINTS.iter().zip(counts.periodic) {
            write!(formatter, " of {points} points:{seen}")?;
        }
    }
    if counts.places > 0 {
        write!(formatter, "; asked at {} places", counts.places)?;
    }
    writeln!(
        formatter,
        "; {} compared, {} differences",
        counts.compared, counts.differences
    )
}

/// How often each refusal was seen, if it was.
fn write_numbers(formatter: &mut fmt::Formatter<'_>, seen: &[u64; NUMBERS]) -> fmt::Result {
    for (number, seen) in seen.iter().enumerate().skip(1) {
        if *seen > 0 {
            write!(formatter, " {number}:{seen}")?;
        }
    }
    Ok(())
}

/// A case in full: what went in, and where the two outcomes part.
pub(crate) fn describe(
    title: &str,
    given: &Case,
    expected: (usize, &Case),
    found: (usize, &Case),
) -> String {
    let returned = [expected.0, found.0].map(|returned| match returned {
        0..NUMBERS => returned.to_string(),
        pattern => format!("{pattern:016X}"),
    });
    let mut text = format!(
        "DIFFERENCE in {title}: {:?}\n  returned: expected {}, found {}\n",
        given.call, returned[0], returned[1]
    );
    for (position, name) in given.call.arguments().iter().enumerate() {
        let patterns = abbreviated(&given.arguments[position].words());
        text += &format!("  {name}: {patterns}\n");
        let expected = expected.1.arguments[position].words_with_guards();
        let found = found.1.arguments[position].words_with_guards();
        text += &parting(&expected, &found);
    }
    text
}

/// Where two outcomes of a slice part first; a place below 0 is a guard.
fn parting(expected: &[u64], found: &[u64]) -> String {
    let mut parted = (0..expected.len()).filter(|at| expected[*at] != found[*at]);
    let Some(first) = parted.next() else {
        return String::new();
    };
    format!(
        "    parts in {} places, first at {}: expected {:016x}, found {:016x}\n",
        1 + parted.count(),
        first as isize - GUARDS as isize,
        expected[first],
        found[first]
    )
}

/// Hexadecimal patterns; a run of equal or counted-up ones is written once.
fn abbreviated(words: &[u64]) -> String {
    let mut text = String::new();
    let mut at = 0;
    while at < words.len() {
        let run = run_length(&words[at..]);
        let _ = write!(text, "{:x}", words[at]);
        if run > 3 {
            let _ = write!(text, "..{:x} ({run} of them)", words[at + run - 1]);
            at += run;
        } else {
            at += 1;
        }
        text.push(' ');
    }
    text
}

/// How many words from the front are equal, or each one more than the last.
fn run_length(words: &[u64]) -> usize {
    let steps = |step: u64| {
        let pairs = words.windows(2);
        1 + pairs
            .take_while(|pair| pair[0].wrapping_add(step) == pair[1])
            .count()
    };
    steps(0).max(steps(1))
}
