//! Refusals as an enum.

use std::error::Error;
use std::fmt;

/// Why a call was refused: the first reason that it met. A refused call leaves what it would write as it was, but for the slots of its
/// answer.
///
/// ```
/// use hullashlar::{exact_index, Refusal};
///
/// let refusal = exact_index(&[0.0, 2.0, 1.0], 0, 0.0).unwrap_err();
/// assert_eq!(refusal, Refusal::Knots);
/// assert_eq!((refusal.number(), refusal.name()), (8, "knots"));
/// assert!(refusal.to_string().starts_with("refused 8 (knots): "));
/// ```
#[derive(Debug, Clone, Copy, PartialEq, Eq, PartialOrd, Ord, Hash)]
#[repr(u8)]
pub enum Refusal {
    /// No axes, or more than four.
    Axes = 1,
    /// An axis of one point or none, or of more than 256.
    Points = 2,
    /// The grid needs a tensor of more than 4,096 numbers.
    Tensor = 3,
    /// A slice of another length than it must have.
    Length = 4,
    /// Too little scratch.
    Scratch = 5,
    /// No place of the grid; a lower index with no knot after it.
    Place = 6,
    /// A number that is infinite or NaN.
    Number = 7,
    /// A knot is not above the one before it, or too far above for a double.
    Knots = 8,
    /// Fewer points than a not-a-knot end needs: 3, or 4 where both ends are so.
    Fewness = 9,
    /// What came out is infinite or NaN.
    Outcome = 10,
    /// A sheet ends before its fields do.
    Short = 11,
    /// An edition that is neither 1 nor 2; for the reader of edition 1 any but 1.
    Edition = 12,
    /// Periodic at one end of an axis and not at the other, or no kind at all.
    Kinds = 13,
    /// A sheet goes on after its fields.
    Tail = 14,
    /// Fewer bytes than the sheet to be written has.
    Buffer = 15,
    /// [`surface`](crate::surface()): the sheet needs a tensor of more than 512 numbers.
    Stack = 16,
    /// [`surface`](crate::surface()): a pattern past the axes in use is not 0.
    Unused = 17,
    /// A coordinate outside the knots of an axis whose mode refuses it.
    Outside = 18,
    /// A value or a slope of a cell in whole numbers is out of its range.
    Range = 19,
    /// A position outside a cell, a cursor past the end, or no 1 to 255 whole cells.
    Position = 20,
    /// The knots of an axis are not evenly spaced.
    Uneven = 21,
    /// No mode at all, or no direction.
    Mode = 22,
    /// Edition 1, and a mode that is not extend, which it cannot hold.
    Lost = 23,
}

/// Each refusal with its name and what it says, in the order of their numbers.
#[rustfmt::skip]
const ALL: [(Refusal, &str, &str); 23] = [
    (Refusal::Axes, "axes", "no axes, or more than four"),
    (Refusal::Points, "points", "an axis of less than 2 points or more than 256"),
    (Refusal::Tensor, "tensor", "a tensor of more than 4,096 numbers"),
    (Refusal::Length, "length", "a slice of another length than it must have"),
    (Refusal::Scratch, "scratch", "too little scratch"),
    (Refusal::Place, "place", "no place of the grid"),
    (Refusal::Number, "number", "a number that is infinite or NaN"),
    (Refusal::Knots, "knots", "knots that do not rise by steps a double holds"),
    (Refusal::Fewness, "fewness", "fewer points than a not-a-knot end needs"),
    (Refusal::Outcome, "outcome", "what came out is infinite or NaN"),
    (Refusal::Short, "short", "a sheet ends before its fields do"),
    (Refusal::Edition, "edition", "no edition that is read or written"),
    (Refusal::Kinds, "kinds", "periodic at one end alone, or no kind"),
    (Refusal::Tail, "tail", "a sheet goes on after its fields"),
    (Refusal::Buffer, "buffer", "fewer bytes than the sheet has"),
    (Refusal::Stack, "stack", "a tensor of more than 512 numbers, for firmware"),
    (Refusal::Unused, "unused", "a pattern past the axes in use is not 0"),
    (Refusal::Outside, "outside", "a coordinate that the mode of its axis refuses"),
    (Refusal::Range, "range", "a value or a slope of a cell out of its range"),
    (Refusal::Position, "position", "a position or a cursor past the end"),
    (Refusal::Uneven, "uneven", "knots that are not evenly spaced"),
    (Refusal::Mode, "mode", "no mode, or no direction"),
    (Refusal::Lost, "lost", "a mode that edition 1 cannot hold"),
];

impl Refusal {
    /// The refusal of a number, as the calls for many points lend one for each point; none of 0, which is no refusal.
    ///
    /// ```
    /// use hullashlar::Refusal;
    ///
    /// assert_eq!(Refusal::of(18), Some(Refusal::Outside));
    /// assert_eq!(Refusal::of(0), None);
    /// ```
    pub fn of(number: usize) -> Option<Self> {
        let before = number.checked_sub(1)?;
        ALL.get(before).map(|&(refusal, _, _)| refusal)
    }

    /// Its number, 1 to 23.
    ///
    /// ```
    /// assert_eq!(hullashlar::Refusal::Number.number(), 7);
    /// ```
    pub fn number(self) -> usize {
        self as usize
    }

    /// Its name, as the header for C has it, in small letters.
    ///
    /// ```
    /// assert_eq!(hullashlar::Refusal::Fewness.name(), "fewness");
    /// ```
    pub fn name(self) -> &'static str {
        ALL[self.number() - 1].1
    }
}

impl fmt::Display for Refusal {
    fn fmt(&self, to: &mut fmt::Formatter<'_>) -> fmt::Result {
        let (_, name, meaning) = ALL[self.number() - 1];
        write!(to, "refused {} ({name}): {meaning}", self.number())
    }
}

impl Error for Refusal {}

/// The answer of a call, or its refusal. A call gives no other number than 0 and those of the refusals.
#[inline]
pub(crate) fn outcome<T>(number: usize, answer: T) -> Result<T, Refusal> {
    match number {
        0 => Ok(answer),
        _ => Err(refused(number)),
    }
}

#[cold]
pub(crate) fn refused(number: usize) -> Refusal {
    Refusal::of(number).expect("a call refuses by 1 to 23")
}
