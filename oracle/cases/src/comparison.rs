//! Runs cases against the reading and against a subject, and compares.

mod either_order;
mod places;
mod sheets;

use crate::case::{Argument, Call, Calls, Case};
use crate::device::{device_text, device_text_of, LENGTHS};
use crate::examples::examples;
use crate::faults::spoil;
use crate::generator::{self, Kind, KINDS};
use crate::grid::Grid;
use crate::lending;
use crate::lent::Word;
use crate::numbers::ordinary;
use crate::random::Random;
use crate::reading_calls::Reading;
use crate::report::{describe, Report, PERIODIC_POINTS};
use crate::sheet::{short_sheet, SHORT_SHEETS};
use crate::stream::{self, passed_over};
use reading::LONGEST_TENSOR;

/// A seed, the number of the first case of each kind, and how many there are.
#[derive(Debug, Clone)]
pub struct Plan {
    pub seed: u64,
    pub first: u64,
    pub cases: [u64; KINDS.len()],
}

/// A list of changes is some 25 calls, so there are fewer lists.
const CHANGES_IN_A_LIST: u64 = 25;

/// The same changes in two orders are some 8 calls.
const CALLS_IN_TWO_ORDERS: u64 = 8;

/// A quick query and a full one, or a direct one and one of even axes.
const CALLS_BESIDE: u64 = 2;

/// The same two, and a look at the knots.
const CALLS_PROFILED: u64 = 3;

/// A surface is asked at some 60 places, by 6 calls each.
const CALLS_AT_EVERY_PLACE: u64 = 360;

impl Plan {
    /// About so many calls of each kind, the examples once, and no sheet of up to
    /// two bytes and no length of a device's curve twice.
    pub fn of_each_kind(seed: u64, calls: u64) -> Self {
        let cases = KINDS.map(|kind| match kind {
            Kind::Example => 1,
            Kind::ShortSheet => calls.min(SHORT_SHEETS),
            Kind::DeviceCurve => calls.min(LENGTHS),
            Kind::ChangeList => calls.div_ceil(CHANGES_IN_A_LIST),
            Kind::EitherOrder => calls.div_ceil(CALLS_IN_TWO_ORDERS),
            Kind::QuickBesideFull | Kind::DirectBesideEven => calls.div_ceil(CALLS_BESIDE),
            Kind::ProfiledDirect => calls.div_ceil(CALLS_PROFILED),
            Kind::AtEveryPlace => calls.div_ceil(CALLS_AT_EVERY_PLACE),
            _ => calls,
        });
        Self {
            seed,
            first: 0,
            cases,
        }
    }

    /// Cases of one kind only.
    pub fn of_kind(seed: u64, kind: Kind, number: u64) -> Self {
        let mut cases = [0; KINDS.len()];
        cases[kind as usize] = number;
        Self {
            seed,
            first: 0,
            cases,
        }
    }

    /// One case alone, by its number.
    pub fn of_case(seed: u64, kind: Kind, number: u64) -> Self {
        let mut plan = Self::of_kind(seed, kind, 1);
        plan.first = number;
        plan
    }
}

/// Compares every kind of the plan.
pub fn compare_all(subject: &dyn Calls, plan: &Plan) -> Report {
    let mut report = Report::default();
    compare_more(subject, plan, &mut report);
    report
}

/// Compares every kind of the plan, beside what a report has seen before.
pub fn compare_more(subject: &dyn Calls, plan: &Plan, report: &mut Report) {
    for kind in KINDS {
        compare_kind(subject, plan, kind, report);
    }
}

/// What bytes that somebody else has chosen are taken for.
#[derive(Debug, Clone, Copy)]
pub enum Bytes {
    Sheet,
    Stream,
    Curve,
}

/// Compares every call and program that takes such bytes.
pub fn compare_bytes(subject: &dyn Calls, what: Bytes, bytes: &[u8]) -> Report {
    let mut report = Report::default();
    let random = &mut Random::new(bytes.len() as u64);
    let mut run = Run {
        subject,
        kind: Kind::Example,
        title: format!("bytes taken for a {what:?}"),
        report: &mut report,
    };
    match what {
        Bytes::Sheet => {
            run.compare_sheet(random, bytes);
            run.compare(&lending::surface(bytes, &[0.5, 0.25, 1.0, -0.75]));
            run.compare(&lending::sheet_text(bytes));
        }
        Bytes::Stream => {
            let pieces = [0, 1 + bytes.len() % 40];
            for piece in pieces {
                run.compare(&stream::report_of(bytes, piece));
            }
        }
        Bytes::Curve => {
            run.compare(&device_text_of(bytes));
        }
    }
    report
}

/// Compares the cases of one kind.
fn compare_kind(subject: &dyn Calls, plan: &Plan, kind: Kind, report: &mut Report) {
    for number in plan.first..plan.first + plan.cases[kind as usize] {
        let random = &mut Random::of_case(plan.seed, kind as u64, number);
        let mut run = Run {
            subject,
            kind,
            title: format!("{} {number} of seed {}", kind.name(), plan.seed),
            report,
        };
        subject.begin(&run.title, number);
        match kind {
            Kind::Example => run.compare_examples(),
            Kind::ChangeList => run.change_list(random),
            Kind::ShortSheet => run.compare_sheet(random, &short_sheet(number % SHORT_SHEETS)),
            Kind::EitherOrder => {
                run.either_order(random);
            }
            Kind::QuickBesideFull => run.quick_beside_full(random),
            Kind::DirectBesideEven => run.direct_beside_even(random),
            Kind::ProfiledDirect => run.profiled_direct(random),
            Kind::AtEveryPlace => run.at_every_place(random),
            Kind::Write => run.write_and_read(random),
            Kind::WrittenBack => run.written_back(plan.seed, number),
            Kind::DeviceCurve => {
                run.compare(&device_text(random, (number % LENGTHS) as usize));
            }
            Kind::Report => {
                run.compare(&stream::report(random, number as usize));
            }
            Kind::EmptySlice => {
                run.compare(&generator::empty_slice(random, number as usize));
            }
            Kind::SheetText => {
                run.compare(&generator::sheet_text(random, number as usize));
            }
            _ => {
                run.compare(&generator::single(kind, number as usize, random));
            }
        }
    }
}

/// One case under comparison.
struct Run<'a> {
    subject: &'a dyn Calls,
    kind: Kind,
    title: String,
    report: &'a mut Report,
}

impl Run<'_> {
    /// Runs a call on both sides. Gives the refusal, the case as the subject left
    /// it (the reading where there is no subject), and whether they are the same.
    fn compare(&mut self, given: &Case) -> (usize, Case, bool) {
        let mut expected = given.clone();
        let returned = Reading.run(&mut expected).expect("the reading answers all");
        let refusal = given.call.refusal(returned);
        let counts = self.report.of_mut(self.kind);
        counts.calls += 1;
        counts.refusals[refusal] += 1;
        if refusal == 0 {
            for (seen, points) in counts.periodic.iter_mut().zip(PERIODIC_POINTS) {
                *seen += given.periodic_axes(points);
            }
        }
        if given.call == Call::ReportText {
            for number in passed_over(&expected) {
                counts.passed_over[number] += 1;
            }
        }
        // What reaches an edge is counted of the cases that are made for it.
        if self.kind != Kind::EmptySlice {
            self.report.reached.count(given, &expected, refusal);
        }
        let mut found = given.clone();
        let Some(answer) = self.subject.run(&mut found) else {
            return (refusal, expected, true);
        };
        self.report.of_mut(self.kind).compared += 1;
        let same = answer == returned && same_arguments(&expected, &found);
        if !same {
            let title = self.title.as_str();
            self.report.difference(self.kind, || {
                describe(title, given, (returned, &expected), (answer, &found))
            });
        }
        (refusal, found, same)
    }

    fn compare_examples(&mut self) {
        for example in examples() {
            self.compare(&example);
        }
    }

    /// A sheet through all of its calls.
    fn compare_sheet(&mut self, random: &mut Random, bytes: &[u8]) {
        self.compare(&lending::read(random, bytes));
        self.compare(&lending::read_edition_1(random, bytes));
        self.compare(&lending::surface(bytes, &[]));
        self.compare(&lending::sheet_tensor(random, bytes, LONGEST_TENSOR));
    }

    /// A quick query and a full one: on knots that the full one accepts their whole answers
    /// are equal.
    fn quick_beside_full(&mut self, random: &mut Random) {
        let given = generator::quick_beside_full(random);
        let full = Case::new(Call::Query, given.arguments.clone());
        let (refusal, quick, _) = self.compare(&given);
        let (full_refusal, full, _) = self.compare(&full);
        let knots_refused = full_refusal == 8;
        if !knots_refused && (refusal != full_refusal || !same_arguments(&full, &quick)) {
            let title = format!("{}, held against the full query", self.title);
            self.report.difference(self.kind, || {
                describe(&title, &given, (full_refusal, &full), (refusal, &quick))
            });
        }
    }

    /// A direct query and one of even axes: where that refuses neither knots nor axes the whole answers
    /// are equal, and of an uneven axis nothing is told.
    fn direct_beside_even(&mut self, random: &mut Random) {
        let given = generator::direct_beside_even(random);
        let mut arguments = given.arguments.clone();
        arguments.push(Argument::of_numbers(&[75, 76]));
        let even = Case::new(Call::EvenQuery, arguments);
        let (refusal, direct, _) = self.compare(&given);
        let (even_refusal, even, _) = self.compare(&even);
        let accepted = !matches!(even_refusal, 7 | 8 | 21);
        let beside = Case::new(Call::DirectQuery, even.arguments[..8].to_vec());
        let told = even
            .argument("uneven")
            .numbers()
            .iter()
            .any(|told| !matches!(told, 0 | 75 | 76));
        if accepted && (refusal != even_refusal || told || !same_arguments(&beside, &direct)) {
            let title = format!("{}, held against the query of even axes", self.title);
            self.report.difference(self.kind, || {
                describe(&title, &given, (even_refusal, &beside), (refusal, &direct))
            });
        }
    }

    /// Knots looked at once, a query of even axes and a direct one. Where the first refuses nothing the two answers are
    /// equal; and by 7, 8 or 21 it refuses what the query of even axes does, unless that meets 7 in a coordinate before.
    fn profiled_direct(&mut self, random: &mut Random) {
        let given = generator::profiled(random);
        let lent = ["axes", "points", "knots"].map(|name| given.argument(name).clone());
        let mut lent = lent.to_vec();
        lent.push(Argument::of_numbers(&[75, 76]));
        let looked = Case::new(Call::EvenProfile, lent);
        let asked = Case::new(Call::DirectQuery, given.arguments[..8].to_vec());
        let (profile, _, _) = self.compare(&looked);
        let (even_refusal, even, _) = self.compare(&given);
        let (refusal, direct, _) = self.compare(&asked);
        let beside = Case::new(Call::DirectQuery, even.arguments[..8].to_vec());
        let same = refusal == even_refusal && same_arguments(&beside, &direct);
        let mut coordinates = given.argument("coordinates").floats().iter();
        let coordinate = coordinates.any(|number| !number.is_finite());
        let holds = match (profile, even_refusal) {
            // Slices that the profile is not lent.
            (_, 4 | 22) => true,
            (0, _) => same,
            (8 | 21, 7) => coordinate,
            _ => profile == even_refusal,
        };
        if !holds {
            let title = format!("{}, the knots refused by {profile}", self.title);
            self.report.difference(self.kind, || {
                describe(&title, &given, (even_refusal, &beside), (refusal, &direct))
            });
        }
    }

    /// A list of changes from a built tensor, shorter on a large one. After each
    /// change the tensor is the fresh build of the samples that then stand, and what
    /// stands at the end is verified. Spoiled changes stand between them; what they
    /// are lent is thrown away.
    fn change_list(&mut self, random: &mut Random) {
        let grid = Grid::generate(random);
        let mut samples: Vec<f64> = (0..grid.samples()).map(|_| ordinary(random)).collect();
        let (refusal, mut tensor) = fresh_build(random, &grid, &samples);
        if refusal != 0 {
            return;
        }
        let most = if grid.tensor() > 1000 { 10 } else { 40 };
        for _ in 0..random.between(most / 4, most) {
            let mut given = generator::change_of(random, &grid, &tensor);
            if random.percent(38) {
                spoil(random, &mut given);
                self.compare(&given);
                continue;
            }
            let (refusal, found, same) = self.compare(&given);
            let mut changed = samples.clone();
            changed[sample_number(&grid, &given)] = given.argument("sample").float();
            let fresh = fresh_build(random, &grid, &changed);
            if !same || !self.is_fresh(&given, (refusal, &found), fresh) {
                return;
            }
            if refusal == 0 {
                samples = changed;
                tensor = found.argument("tensor").floats().to_vec();
            }
        }
        self.hold_whole(&lending::verify(random, &grid, &tensor));
    }

    /// Verifies a tensor that is whole, and is to be called so.
    fn hold_whole(&mut self, given: &Case) {
        let (refusal, found, _) = self.compare(given);
        let mut expected = found.clone();
        expected.argument_mut("place").numbers_mut().fill(0);
        let slots = expected.argument_mut("found").numbers_mut();
        slots.copy_from_slice(&[1, 0, 0]);
        let title = "held against a whole tensor";
        self.hold(title, given, (0, &expected), (refusal, &found));
    }

    /// Whether a change gave what the fresh build of the changed samples gives.
    fn is_fresh(&mut self, given: &Case, found: (usize, &Case), fresh: (usize, Vec<f64>)) -> bool {
        let (refusal, tensor) = fresh;
        let mut expected = found.1.clone();
        if refusal == 0 {
            let slots = expected.argument_mut("tensor").floats_mut();
            slots.copy_from_slice(&tensor);
        }
        let title = "held against a fresh build";
        self.hold(title, given, (refusal, &expected), found)
    }

    /// Holds what a call left against something else than the reading; whether it is the same.
    fn hold(
        &mut self,
        what: &str,
        given: &Case,
        expected: (usize, &Case),
        found: (usize, &Case),
    ) -> bool {
        let same = expected.0 == found.0 && same_arguments(expected.1, found.1);
        if !same {
            let title = format!("{}, {what}", self.title);
            self.report
                .difference(self.kind, || describe(&title, given, expected, found));
        }
        same
    }
}

/// The refusal and the tensor of the reading's build.
fn fresh_build(random: &mut Random, grid: &Grid, samples: &[f64]) -> (usize, Vec<f64>) {
    let mut case = lending::build(random, grid, samples);
    let refusal = Reading.run(&mut case).expect("the reading answers all");
    (refusal, case.argument("tensor").floats().to_vec())
}

/// The number of the sample that a change is about.
fn sample_number(grid: &Grid, change: &Case) -> usize {
    grid.number(change.argument("place").numbers())
}

/// Whether two cases stand the same after a call, guards and inputs too.
fn same_arguments(expected: &Case, found: &Case) -> bool {
    let one_nan = expected.call.reads_patterns();
    let mut pairs = expected.arguments.iter().zip(&found.arguments);
    pairs.all(|pair| match pair {
        (Argument::Floats(expected), Argument::Floats(found)) => {
            let mut pairs = expected.whole().iter().zip(found.whole());
            pairs.all(|(expected, found)| {
                let both_nan = expected.is_nan() && found.is_nan();
                expected.word() == found.word() || (one_nan && both_nan)
            })
        }
        (Argument::Numbers(expected), Argument::Numbers(found)) => {
            expected.whole() == found.whole()
        }
        (Argument::Bytes(expected), Argument::Bytes(found)) => expected.whole() == found.whole(),
        _ => true,
    })
}
