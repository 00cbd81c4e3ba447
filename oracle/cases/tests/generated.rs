//! The generated cases reach every refusal, and most are accepted.

use cases::{
    compare_all, Calls, Case, Kind, Plan, Reading, KINDS, NUMBERS, PASSED_OVER, SHORT_SHEETS,
    STOPPING,
};

/// Answers no call: the generator alone runs.
struct Nobody;

impl Calls for Nobody {
    fn run(&self, _: &mut Case) -> Option<usize> {
        None
    }
}

#[test]
fn every_refusal_is_seen_and_no_other() {
    let report = compare_all(&Nobody, &Plan::of_each_kind(1, 4000));
    for kind in KINDS {
        let seen = &report.of(kind).refusals;
        let numbers: Vec<usize> = (1..seen.len()).filter(|number| seen[*number] > 0).collect();
        assert_eq!(numbers, kind.refusals(), "{}", kind.name());
    }
}

#[test]
fn about_sixty_in_a_hundred_are_accepted() {
    let report = compare_all(&Nobody, &Plan::of_each_kind(2, 4000));
    // Quick queries beside full ones, and queries at places, are nearly all accepted, so that the
    // answers are compared; the reader of edition 1 is given half of its sheets in edition 2; a slice of
    // no items is always refused.
    let generated = |kind: &Kind| {
        !matches!(
            kind,
            Kind::Example
                | Kind::ShortSheet
                | Kind::QuickBesideFull
                | Kind::AtEveryPlace
                | Kind::DeviceCurve
                | Kind::ReadEdition1
                | Kind::DirectBesideEven
                | Kind::EmptySlice
                | Kind::ProfiledDirect
        )
    };
    let (mut calls, mut accepted) = (0, 0);
    for kind in KINDS.into_iter().filter(generated) {
        let counts = report.of(kind);
        let share = 100 * counts.refusals[0] / counts.calls;
        assert!((50..=70).contains(&share), "{}: {share}", kind.name());
        calls += counts.calls;
        accepted += counts.refusals[0];
    }
    let share = 100 * accepted / calls;
    assert!((55..=65).contains(&share), "{share}");
}

/// One interval takes the zero moments, and two are the smallest cyclic solve.
#[test]
fn periodic_axes_of_one_interval_and_of_two_are_among_them() {
    let report = compare_all(&Nobody, &Plan::of_each_kind(6, 4000));
    let with_ends = [
        Kind::Moments,
        Kind::Build,
        Kind::Change,
        Kind::ChangeList,
        Kind::Verify,
    ];
    for kind in with_ends {
        let seen = report.of(kind).periodic;
        assert!(
            seen.iter().all(|seen| *seen > 50),
            "{}: {seen:?}",
            kind.name()
        );
    }
}

/// Of the sheets of two bytes a sixteenth has an edition; half of these have 1 to
/// 4 axes, and each number of axes has two with 1 point. Of those of one byte 16
/// have that edition, and 8 of them such axes. One reader of four knows edition 1 alone.
#[test]
fn every_sheet_of_up_to_two_bytes_is_there() {
    let plan = Plan::of_kind(5, Kind::ShortSheet, SHORT_SHEETS);
    let seen = compare_all(&Nobody, &plan).total().refusals;
    let mut expected = [0; NUMBERS];
    let (both, one) = (3, 1);
    let read = both * 2 + one;
    expected[1] = read * (8 + 2048);
    expected[2] = read * (4 * 2);
    expected[11] = 4 + read * (8 + 2048 - 4 * 2);
    expected[12] = 4 * (256 + 65_536) - read * (16 + 4096);
    assert_eq!(seen, expected);
}

#[test]
fn a_change_is_the_fresh_build_of_the_samples_then_standing() {
    let plan = Plan::of_kind(3, Kind::ChangeList, 1000);
    let total = compare_all(&Nobody, &plan).total();
    assert!(total.calls > 20_000);
    assert_eq!(total.differences, 0);
}

/// Of the tensors that are verified at least half are stale or damaged, and a third is whole.
#[test]
fn tensors_that_are_verified_are_of_both_sorts() {
    let plan = Plan::of_kind(3, Kind::Verify, 4000);
    let report = compare_all(&Nobody, &plan);
    let seen = |name: &str| {
        let mut edges = report.reached();
        edges.find(|(edge, _)| *edge == name).unwrap().1
    };
    let (whole, stale) = (seen("a whole tensor"), seen("a tensor that is not whole"));
    assert_eq!(whole + stale, report.of(Kind::Verify).refusals[0]);
    assert!(stale >= whole && 2 * whole > stale, "{whole} {stale}");
}

/// A list that begins with a build ends with a verification, and all are of whole tensors.
#[test]
fn what_a_list_of_changes_leaves_is_whole() {
    let plan = Plan::of_kind(3, Kind::ChangeList, 300);
    let report = compare_all(&Nobody, &plan);
    let whole = report.reached().find(|(edge, _)| *edge == "a whole tensor");
    assert!(whole.unwrap().1 > 250, "{whole:?}");
    assert_eq!(report.total().differences, 0);
}

#[test]
fn streams_have_the_refusals_that_are_passed_over() {
    let plan = Plan::of_kind(7, Kind::Report, 3000);
    let report = compare_all(&Nobody, &plan);
    assert_eq!(report.not_in_streams(&plan), []);
    let few = Plan::of_kind(7, Kind::Report, 1);
    let missing = compare_all(&Nobody, &few).not_in_streams(&few);
    assert_eq!(missing, [&STOPPING[..], &PASSED_OVER].concat());
}

#[test]
fn a_planned_kind_of_which_nothing_is_compared_is_named() {
    let plan = Plan::of_each_kind(6, 500);
    assert_eq!(compare_all(&Reading, &plan).not_compared(&plan), []);
    assert_eq!(compare_all(&Nobody, &plan).not_compared(&plan), KINDS);
    let curves = Plan::of_kind(6, Kind::Curve, 1);
    let not_compared = compare_all(&Nobody, &curves).not_compared(&curves);
    assert_eq!(not_compared, [Kind::Curve]);
}
