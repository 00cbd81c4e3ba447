//! The report by hand: the request's example, what each total counts, which refusals it passes over
//! and which it stops at.

mod packed;

use packed::{packed, Field, ONE, ZERO};
use reading::Report;

const NATURAL: [u64; 2] = [2, 2];

/// The sheet of axes that are all alike, with the knots 0 and 1, in edition 1.
fn sheet(axes: usize, samples: &[f64]) -> Vec<u8> {
    let mut fields = vec![(1, 4), (axes as u64, 3)];
    for _ in 0..axes {
        fields.extend(axis(NATURAL, &[0.0, 1.0]));
    }
    fields.extend(samples.iter().map(|sample| (sample.to_bits(), 64)));
    packed(&fields)
}

/// Points, kinds, a value of zero for each kind that has one, and knots.
fn axis(kinds: [u64; 2], knots: &[f64]) -> Vec<Field> {
    let mut fields = vec![(knots.len() as u64 - 1, 8), (kinds[0], 2), (kinds[1], 2)];
    let numbered = kinds.iter().filter(|kind| matches!(kind, 1 | 2)).count();
    fields.extend(vec![ZERO; numbered]);
    fields.extend(knots.iter().map(|knot| (knot.to_bits(), 64)));
    fields
}

/// One axis with these kinds and knots, and samples of 0 and 1 in turn.
fn line(kinds: [u64; 2], knots: &[f64]) -> Vec<u8> {
    let mut fields = vec![(1, 4), (1, 3)];
    fields.extend(axis(kinds, knots));
    fields.extend((0..knots.len()).map(|sample| [ZERO, ONE][sample % 2]));
    packed(&fields)
}

fn example() -> Vec<u8> {
    sheet(1, &[0.0, 1.0])
}

/// The same in edition 2, with a mode.
fn in_edition_2(mode: u64) -> Vec<u8> {
    let mut fields = vec![(2, 4), (1, 3), (1, 8), (2, 2), (2, 2), (mode, 2)];
    fields.extend([ZERO, ZERO, ZERO, ONE, ZERO, ONE]);
    packed(&fields)
}

fn text(stream: &[u8]) -> String {
    Report::of(stream).to_string()
}

/// Entries, non-zero entries and the largest magnitude of each order.
fn orders(stream: &[u8]) -> [(u64, u64, f64); 5] {
    let orders = Report::of(stream).orders;
    orders.map(|order| (order.entries, order.non_zero, order.largest))
}

#[test]
fn the_example_alone() {
    let sheet = example();
    assert_eq!(sheet.len(), 51);
    let expected = "\
sheets 1
accepted 1
order 0 2 1 3FF0000000000000
order 1 2 2 3FF0000000000000
order 2 0 0 0000000000000000
order 3 0 0 0000000000000000
order 4 0 0 0000000000000000
end
";
    assert_eq!(text(&sheet), expected);
}

#[test]
fn no_bytes_hold_no_sheet() {
    let expected = "\
sheets 0
accepted 0
order 0 0 0 0000000000000000
order 1 0 0 0000000000000000
order 2 0 0 0000000000000000
order 3 0 0 0000000000000000
order 4 0 0 0000000000000000
end
";
    assert_eq!(text(&[]), expected);
}

#[test]
fn refusals_stand_in_rising_order_whatever_the_order_of_sheets() {
    let not_a_knot = line([0, 0], &[0.0, 1.0]);
    let level = line(NATURAL, &[0.0, 0.0]);
    let mut stream = [example(), not_a_knot, level.clone(), in_edition_2(1), level].concat();
    stream.push(0x30);
    let expected = "\
sheets 6
accepted 2
refused 8 2
refused 9 1
refused 12 1
order 0 4 2 3FF0000000000000
order 1 4 4 3FF0000000000000
order 2 0 0 0000000000000000
order 3 0 0 0000000000000000
order 4 0 0 0000000000000000
stopped
";
    assert_eq!(text(&stream), expected);
}

/// Its tensor is 0 0 0 1, 0 1 0 1, 0 0 1 1, 1 1 1 1, the mask fastest.
#[test]
fn the_order_is_the_number_of_ones_in_the_mask() {
    let stream = sheet(2, &[0.0, 0.0, 0.0, 1.0]);
    let none = (0, 0, 0.0);
    let expected = [(4, 1, 1.0), (8, 4, 1.0), (4, 4, 1.0), none, none];
    assert_eq!(orders(&stream), expected);
}

/// On 16 places each order has as many masks as there are ways to choose its axes.
#[test]
fn four_axes_have_orders_up_to_four() {
    let entries = orders(&sheet(4, &[0.5; 16])).map(|(entries, _, _)| entries);
    assert_eq!(entries, [16, 64, 96, 64, 16]);
}

#[test]
fn minus_zero_is_zero_and_a_magnitude_has_no_sign() {
    let stream = [sheet(1, &[-0.0, -2.0]), example()].concat();
    let none = (0, 0, 0.0);
    let expected = [(4, 2, 2.0), (4, 4, 2.0), none, none, none];
    assert_eq!(orders(&stream), expected);
    let zeros = text(&sheet(1, &[-0.0, -0.0]));
    assert!(zeros.contains("order 0 2 0 0000000000000000\n"));
}

/// The sheets, the accepted ones, what was refused and whether it stopped.
fn counted(stream: &[u8]) -> (u64, u64, Vec<(usize, u64)>, bool) {
    let report = Report::of(stream);
    let refused = report.refused.into_iter().collect();
    (report.sheets, report.accepted, refused, report.stopped)
}

#[test]
fn the_builds_refusals_are_passed_over() {
    let not_finite = sheet(1, &[0.0, f64::INFINITY]);
    let overflowing = sheet(1, &[-1e308, 1e308]);
    let refused = [
        (7, not_finite),
        (8, line(NATURAL, &[0.0, 0.0])),
        (9, line([0, 2], &[0.0, 1.0])),
        (10, overflowing),
    ];
    for (number, sheet) in refused {
        let stream = [example(), sheet, in_edition_2(0)].concat();
        assert_eq!(counted(&stream), (3, 2, vec![(number, 1)], false));
    }
}

#[test]
fn the_readers_refusals_stop_it() {
    let counted_up: Vec<f64> = (0..41).map(f64::from).collect();
    let mut too_large = vec![(1, 4), (2, 3)];
    too_large.extend(axis(NATURAL, &counted_up[..25]));
    too_large.extend(axis(NATURAL, &counted_up));
    let mut marked = example();
    *marked.last_mut().unwrap() |= 1;
    let refused = [
        (1, packed(&[(1, 4), (0, 3)])),
        (1, packed(&[(2, 4), (5, 3)])),
        (2, line(NATURAL, &[0.0])),
        (3, packed(&too_large)),
        (12, vec![0]),
        (12, packed(&[(3, 4), (1, 3)])),
        (13, line([3, 2], &[0.0, 1.0])),
        (14, marked),
        (22, in_edition_2(3)),
    ];
    for (number, sheet) in refused {
        let stream = [example(), sheet, example()].concat();
        assert_eq!(counted(&stream), (2, 1, vec![(number, 1)], true));
    }
}

#[test]
fn a_stream_that_ends_in_a_sheet_stops_there() {
    let stream = [in_edition_2(2), example()].concat();
    for end in 52..stream.len() {
        let found = counted(&stream[..end]);
        assert_eq!(found, (2, 1, vec![(11, 1)], true), "{end} bytes");
    }
    assert_eq!(counted(&stream), (2, 2, vec![], false));
}

#[test]
fn a_bit_to_the_byte_is_14_though_the_build_would_refuse_too() {
    let mut marked = line([0, 2], &[0.0, 1.0]);
    *marked.last_mut().unwrap() |= 8;
    assert_eq!(counted(&marked), (1, 0, vec![(14, 1)], true));
}

#[test]
fn bytes_behind_a_million_sheets_stop_it() {
    let refused = line([0, 0], &[0.0, 1.0]);
    let mut stream = refused.repeat(1_000_000);
    let all = vec![(9, 1_000_000)];
    assert_eq!(counted(&stream), (1_000_000, 0, all.clone(), false));
    stream.push(0);
    assert_eq!(counted(&stream), (1_000_000, 0, all, true));
}
