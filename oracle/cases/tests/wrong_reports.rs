//! Copies of the report with one deliberate error each: the streams find them.

mod altered;

use altered::differences;
use cases::{stopped_by, Call, Calls, Case, Kind};
use reading::{Report, Stream, StreamSheet};

/// A report that is made of a stream and of the size of the pieces that it is given in.
struct Wrong(fn(stream: &[u8], piece: usize) -> Report);

impl Calls for Wrong {
    fn run(&self, case: &mut Case) -> Option<usize> {
        if case.call != Call::ReportText {
            return None;
        }
        let piece = case.argument("piece").number();
        let text = (self.0)(case.argument("stream").bytes(), piece).to_string();
        let slot = case.argument_mut("text").bytes_mut();
        slot[..text.len()].copy_from_slice(text.as_bytes());
        case.argument_mut("length").numbers_mut()[0] = text.len();
        Some(stopped_by(&text))
    }
}

fn is_found(report: fn(&[u8], usize) -> Report) -> bool {
    differences(&Wrong(report), Kind::Report) > 0
}

/// The report of a stream, altered by each entry of its tensors and the mask of the entry.
fn with_entries(mut report: Report, stream: &[u8], alter: fn(&mut Report, usize, f64)) -> Report {
    for StreamSheet { axes, tensor, .. } in Stream::new(stream) {
        for (place, number) in tensor.iter().enumerate() {
            alter(&mut report, place % (1 << axes), *number);
        }
    }
    report
}

fn order(mask: usize) -> usize {
    mask.count_ones() as usize
}

#[test]
fn the_report_itself_is_not_found() {
    assert!(!is_found(|stream, _| Report::of(stream)));
}

#[test]
fn minus_zero_that_counts_is_found() {
    assert!(is_found(|stream, _| {
        with_entries(Report::of(stream), stream, |report, mask, number| {
            let is_minus_zero = number.to_bits() == 1 << 63;
            report.orders[order(mask)].non_zero += u64::from(is_minus_zero);
        })
    }));
}

#[test]
fn the_mask_for_the_order_is_found() {
    assert!(is_found(|stream, _| {
        with_entries(Report::of(stream), stream, |report, mask, _| {
            report.orders[order(mask)].entries -= 1;
            report.orders[mask.min(4)].entries += 1;
        })
    }));
}

#[test]
fn the_largest_by_value_is_found() {
    assert!(is_found(|stream, _| {
        let mut report = Report::of(stream);
        for order in &mut report.orders {
            order.largest = 0.0;
        }
        with_entries(report, stream, |report, mask, number| {
            let largest = &mut report.orders[order(mask)].largest;
            *largest = largest.max(number);
        })
    }));
}

#[test]
fn a_last_sheet_that_is_not_counted_is_found() {
    assert!(is_found(|stream, _| {
        let mut report = Report::of(stream);
        report.sheets -= u64::from(report.stopped);
        report
    }));
}

#[test]
fn a_stop_at_7_is_found() {
    assert!(is_found(|stream, _| {
        let mut report = Report::default();
        let mut sheets = Stream::new(stream);
        for sheet in &mut sheets {
            report.count(&sheet);
            if sheet.refusal == 7 {
                report.stopped = true;
                return report;
            }
        }
        report.stopped = sheets.stopped();
        report
    }));
}

#[test]
fn no_stop_at_14_is_found() {
    assert!(is_found(|stream, _| {
        let mut report = Report::of(stream);
        report.stopped &= !report.refused.contains_key(&14);
        report
    }));
}

#[test]
fn a_byte_dropped_between_two_pieces_is_found() {
    assert!(is_found(|stream, piece| {
        let mut stream = stream.to_vec();
        if piece > 0 && piece < stream.len() {
            stream.remove(piece);
        }
        Report::of(&stream)
    }));
}

#[test]
fn a_byte_dropped_behind_the_first_65536_is_found() {
    assert!(is_found(|stream, _| {
        let mut stream = stream.to_vec();
        if stream.len() > 65_536 {
            stream.remove(65_536);
        }
        Report::of(&stream)
    }));
}
