//! The report over a stream of sheets, from the request alone: its sheets one after the other, and
//! what is counted of them.

use crate::refusals::{Refusal, CURVE_SCRATCH};
use crate::sheet::{build_sheet, parse_front, Sheet};
use std::collections::BTreeMap;
use std::fmt;

/// The most sheets that are taken of a stream.
const MOST_SHEETS: u64 = 1_000_000;

/// A sheet of a stream: its refusal, 0 for none, and its tensor, which is empty where it is refused.
pub struct StreamSheet {
    pub refusal: Refusal,
    pub axes: usize,
    pub tensor: Vec<f64>,
}

/// The sheets of a stream one after the other, the one it stops in too.
pub struct Stream<'a> {
    rest: &'a [u8],
    sheets: u64,
    stopped: bool,
}

impl<'a> Stream<'a> {
    /// A stream of which no sheet was taken.
    pub fn new(bytes: &'a [u8]) -> Self {
        Self {
            rest: bytes,
            sheets: 0,
            stopped: false,
        }
    }

    /// Whether it has stopped before its end; known once there is no further sheet.
    pub fn stopped(&self) -> bool {
        self.stopped
    }
}

impl Iterator for Stream<'_> {
    type Item = StreamSheet;

    fn next(&mut self) -> Option<StreamSheet> {
        self.stopped |= self.sheets == MOST_SHEETS && !self.rest.is_empty();
        if self.stopped || self.rest.is_empty() {
            return None;
        }
        self.sheets += 1;
        let built = match parse_front(self.rest) {
            Ok((sheet, length)) => {
                self.rest = &self.rest[length..];
                tensor(&sheet).map(|tensor| (sheet.axes, tensor))
            }
            Err(refusal) => {
                self.stopped = true;
                Err(refusal)
            }
        };
        let refusal = built.as_ref().err().copied().unwrap_or(0);
        let (axes, tensor) = built.unwrap_or_default();
        Some(StreamSheet {
            refusal,
            axes,
            tensor,
        })
    }
}

/// The tensor of a sheet that was read, or the build's refusal.
fn tensor(sheet: &Sheet) -> Result<Vec<f64>, Refusal> {
    let length = sheet.samples.len() << sheet.axes;
    let mut tensor = vec![0.0; length];
    build_sheet(sheet, &mut tensor, &mut vec![0.0; length + CURVE_SCRATCH])?;
    Ok(tensor)
}

/// What is counted of the entries of one derivative order.
#[derive(Debug, Clone, Copy, Default)]
pub struct Order {
    pub entries: u64,
    pub non_zero: u64,
    pub largest: f64,
}

impl Order {
    fn count(&mut self, number: f64) {
        self.entries += 1;
        self.non_zero += u64::from(number != 0.0);
        self.largest = self.largest.max(number.abs());
    }
}

/// All that is counted of a stream.
#[derive(Debug, Clone, Default)]
pub struct Report {
    pub sheets: u64,
    pub accepted: u64,
    /// How many sheets were refused by each number that occurred.
    pub refused: BTreeMap<Refusal, u64>,
    pub orders: [Order; 5],
    pub stopped: bool,
}

impl Report {
    /// The report of a stream.
    pub fn of(bytes: &[u8]) -> Self {
        let mut report = Self::default();
        let mut stream = Stream::new(bytes);
        for sheet in &mut stream {
            report.count(&sheet);
        }
        report.stopped = stream.stopped();
        report
    }

    /// Counts a sheet. An entry's order is how many ones its mask has; the mask is fastest in a
    /// tensor.
    pub fn count(&mut self, sheet: &StreamSheet) {
        self.sheets += 1;
        match sheet.refusal {
            0 => self.accepted += 1,
            number => *self.refused.entry(number).or_default() += 1,
        }
        for (place, number) in sheet.tensor.iter().enumerate() {
            let mask = place % (1 << sheet.axes);
            self.orders[mask.count_ones() as usize].count(*number);
        }
    }
}

/// What the report program prints.
impl fmt::Display for Report {
    fn fmt(&self, formatter: &mut fmt::Formatter<'_>) -> fmt::Result {
        writeln!(formatter, "sheets {}", self.sheets)?;
        writeln!(formatter, "accepted {}", self.accepted)?;
        for (number, sheets) in &self.refused {
            writeln!(formatter, "refused {number} {sheets}")?;
        }
        for (order, counted) in self.orders.iter().enumerate() {
            let (entries, non_zero) = (counted.entries, counted.non_zero);
            let largest = counted.largest.to_bits();
            writeln!(
                formatter,
                "order {order} {entries} {non_zero} {largest:016X}"
            )?;
        }
        writeln!(
            formatter,
            "{}",
            if self.stopped { "stopped" } else { "end" }
        )
    }
}
