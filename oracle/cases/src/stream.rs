//! Streams of sheets for the report: good sheets and such as are refused, ended and cut in every way.

use crate::case::{Argument, Call, Case};
use crate::grid::Grid;
use crate::random::Random;
use crate::sheet::{
    damaged_sheet, edition_of, example_sheet, good_sheet, periodic_sheet, swept_sheet,
};

/// The refusals at which a report stops, and those that it passes over.
pub const STOPPING: [usize; 8] = [1, 2, 3, 11, 12, 13, 14, 22];
pub const PASSED_OVER: [usize; 4] = [7, 8, 9, 10];

/// The largest of the small pieces that a stream is given in.
const SMALL_PIECE: usize = 40;

/// The most pieces of a stream.
const MOST_PIECES: usize = 400;

/// The bytes of the longest accepted sheet. No buffer that holds one is too short for what is left of
/// a stream of that length, so that each piece is read whole.
const LONGEST_SHEET: usize = 10_309;

/// Bytes at which a buffer may end.
const BOUNDARIES: [usize; 5] = [LONGEST_SHEET, 32_768, 65_536, 131_072, 524_288];

/// The length of a text that every report fits.
const TEXT: usize = 1_200;

/// So many streams in a hundred are long, and so many get what may stop a report.
const LONG: usize = 3;
const STOPPED: usize = 45;

/// The stream of a number: first small ones with all that a sweep does to a sheet, in pieces of
/// every small size, and then generated ones.
pub fn report(random: &mut Random, number: usize) -> Case {
    if let Some(stream) = swept_stream(number) {
        return report_of(&stream, 1 + number % SMALL_PIECE);
    }
    let stream = generated(random);
    let piece = piece(random, stream.len());
    report_of(&stream, piece)
}

/// The report of a stream that is given in pieces of so many bytes, or whole where they have none.
pub fn report_of(stream: &[u8], piece: usize) -> Case {
    let arguments = vec![
        Argument::of_bytes(stream),
        Argument::Number(piece),
        Argument::of_bytes(&[0; TEXT]),
        Argument::of_numbers(&[0]),
    ];
    Case::new(Call::ReportText, arguments)
}

/// No bytes; then the example, and behind it the one of the other edition as a sweep leaves it; of
/// every other stream that is the end, and in the others a third sheet follows.
fn swept_stream(number: usize) -> Option<Vec<u8>> {
    if number == 0 {
        return Some(Vec::new());
    }
    let swept = swept_sheet(number / 2)?;
    let other = example_sheet(edition_of(number / 2 + 1));
    let behind = if number.is_multiple_of(2) {
        &other[..]
    } else {
        &[]
    };
    Some([&other, &swept[..], behind].concat())
}

fn generated(random: &mut Random) -> Vec<u8> {
    let mut sheets = Vec::new();
    if random.percent(LONG) {
        sheets.extend(up_to_a_boundary(random));
    }
    for _ in 0..random.pick(&[1, 1, 2, 2, 2, 3, 4, 6, 9]) {
        sheets.push(sheet(random));
    }
    if random.percent(STOPPED) {
        return stopped(random, sheets);
    }
    sheets.concat()
}

/// A sheet that the reader accepts; the build refuses some.
fn sheet(random: &mut Random) -> Vec<u8> {
    let (number, grid) = (random.below(2), Grid::generate(random));
    good_sheet(random, number, &grid)
}

/// Sheets that end about where a buffer may end: any that leave room for the last ones, and then as
/// many of 68 bytes as let sheets of 35 fill the rest.
fn up_to_a_boundary(random: &mut Random) -> Vec<Vec<u8>> {
    let mut rest = random.pick(&BOUNDARIES) + random.below(81) - 40;
    let (short, longer) = (periodic_sheet(1), periodic_sheet(2));
    let last_ones = short.len() * longer.len();
    let mut sheets = Vec::new();
    loop {
        let next = sheet(random);
        if next.len() + last_ones > rest {
            break;
        }
        rest -= next.len();
        sheets.push(next);
    }
    while !rest.is_multiple_of(short.len()) {
        rest -= longer.len();
        sheets.push(longer.clone());
    }
    sheets.extend(vec![short.clone(); rest / short.len()]);
    sheets
}

/// Sheets with a damaged one among them, with a few bytes behind them, or cut anywhere.
fn stopped(random: &mut Random, mut sheets: Vec<Vec<u8>>) -> Vec<u8> {
    match random.below(10) {
        0..=6 => {
            let (number, grid) = (random.below(1 << 20), Grid::generate(random));
            let damaged = damaged_sheet(random, number, &grid);
            sheets.insert(random.below(sheets.len() + 1), damaged);
        }
        7 => {
            let byte = random.pick(&[0, 0x10, 0x12, 0x22, 0x30, 0x80, 0xFF]);
            sheets.push(vec![byte; random.between(1, 9)]);
        }
        _ => {
            let stream = sheets.concat();
            return stream[..random.below(stream.len())].to_vec();
        }
    }
    sheets.concat()
}

/// The bytes of each piece of a stream: few, or 0 where it is given whole.
fn piece(random: &mut Random, length: usize) -> usize {
    if length > LONGEST_SHEET || random.percent(40) {
        return 0;
    }
    random.between(1, SMALL_PIECE).max(length / MOST_PIECES)
}

/// The numbers of the refusals that stand in a report's text.
fn refusals(text: &str) -> impl Iterator<Item = usize> + '_ {
    let lines = text.lines();
    let refused = lines.filter_map(|line| line.strip_prefix("refused "));
    refused.filter_map(|rest| rest.split(' ').next()?.parse().ok())
}

/// The first refusal that stands in a text, 0 where none does.
pub fn refused_by(text: &str) -> usize {
    refusals(text).next().unwrap_or(0)
}

/// The refusal that a report stops at by its text, 0 where it does not.
pub fn stopped_by(text: &str) -> usize {
    let stopping = refusals(text).find(|number| STOPPING.contains(number));
    stopping.unwrap_or(0)
}

/// The refusals that the report of a case passes over.
pub fn passed_over(answered: &Case) -> Vec<usize> {
    let length = answered.argument("length").numbers()[0];
    let text = String::from_utf8_lossy(&answered.argument("text").bytes()[..length]);
    let passed_over = refusals(&text).filter(|number| PASSED_OVER.contains(number));
    passed_over.collect()
}
