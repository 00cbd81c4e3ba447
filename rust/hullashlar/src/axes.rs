//! The axes as the calls take them.

/// The axes as the calls take them; what stands past the axes in use decides nothing.
///
/// ```
/// use hullashlar::{kind, mode, Axes};
///
/// let axes = Axes {
///     count: 2,
///     points: [5, 4, 0, 0],
///     kinds: [kind::NOT_A_KNOT; 8],
///     modes: [mode::HOLD; 4],
///     ..Axes::default()
/// };
/// assert_eq!((axes.knots_length(), axes.samples_length(), axes.tensor_length()), (9, 20, 80));
/// ```
#[derive(Debug, Clone, Default, PartialEq)]
pub struct Axes {
    /// How many axes are in use.
    pub count: usize,
    /// The points of each axis.
    pub points: [usize; 4],
    /// The kinds of each axis's lower and upper end; [`kind`] has them.
    pub kinds: [u8; 8],
    /// The values that go with the kinds; that of an end which takes none decides nothing.
    pub values: [f64; 8],
    /// What becomes of a coordinate outside the knots of each axis; [`mode`] has them.
    pub modes: [u8; 4],
}

impl Axes {
    /// The points of the axes in use.
    fn used(&self) -> &[usize] {
        &self.points[..self.count.min(self.points.len())]
    }

    /// How many knots there are on all axes together.
    ///
    /// ```
    /// let axes = hullashlar::Axes { count: 2, points: [5, 4, 0, 0], ..Default::default() };
    /// assert_eq!(axes.knots_length(), 9);
    /// ```
    pub fn knots_length(&self) -> usize {
        self.used()
            .iter()
            .fold(0, |sum, &points| sum.saturating_add(points))
    }

    /// How many samples there are.
    ///
    /// ```
    /// let axes = hullashlar::Axes { count: 2, points: [5, 4, 0, 0], ..Default::default() };
    /// assert_eq!(axes.samples_length(), 20);
    /// ```
    pub fn samples_length(&self) -> usize {
        self.used()
            .iter()
            .fold(1, |product, &points| product.saturating_mul(points))
    }

    /// How many numbers the tensor holds.
    ///
    /// ```
    /// let axes = hullashlar::Axes { count: 2, points: [5, 4, 0, 0], ..Default::default() };
    /// assert_eq!(axes.tensor_length(), 80);
    /// ```
    pub fn tensor_length(&self) -> usize {
        self.samples_length().saturating_mul(1 << self.used().len())
    }
}

/// The kinds of an end.
///
/// ```
/// use hullashlar::{kind, moments, SCRATCH};
///
/// // A curve that repeats itself: the first sample is the last one too.
/// let (knots, samples) = ([0.0, 1.0, 2.0, 3.0], [0.0, 1.0, -1.0, 0.0]);
/// let (mut answer, mut scratch) = ([0.0; 4], [0.0; SCRATCH]);
/// moments(&knots, &samples, [kind::PERIODIC; 2], [0.0; 2], &mut answer, &mut scratch)?;
/// assert_eq!(answer[0], answer[3]);
/// # Ok::<(), hullashlar::Refusal>(())
/// ```
pub mod kind {
    /// The first two cells, or the last two, are one cubic.
    pub const NOT_A_KNOT: u8 = 0;
    /// The slope at the end is the value that goes with the kind.
    pub const FIRST_DERIVATIVE: u8 = 1;
    /// The second derivative at the end is the value that goes with the kind; natural where it is 0.
    pub const SECOND_DERIVATIVE: u8 = 2;
    /// The curve repeats itself. It stands at both ends of an axis or at neither.
    pub const PERIODIC: u8 = 3;
}

/// What becomes of a coordinate below the first knot of its axis or above the last. An end knot itself is inside.
///
/// ```
/// use hullashlar::{mode, Axes, Refusal, Surface};
///
/// let mut axes = Axes { count: 1, points: [4, 0, 0, 0], ..Axes::default() };
/// let (knots, samples) = ([0.0, 1.0, 2.0, 3.0], [0.0, 1.0, 4.0, 9.0]);
/// let mut at_four = |chosen| {
///     axes.modes[0] = chosen;
///     Ok(Surface::build(axes.clone(), &knots, &samples)?.query(&[4.0])?.0)
/// };
/// assert_eq!(at_four(mode::EXTEND), Ok(16.0));
/// assert_eq!(at_four(mode::HOLD), Ok(9.0));
/// assert_eq!(at_four(mode::REFUSE), Err(Refusal::Outside));
/// ```
pub mod mode {
    /// The boundary cubic goes on.
    pub const EXTEND: u8 = 0;
    /// The nearest end knot is taken in its place.
    pub const HOLD: u8 = 1;
    /// The query is refused by 18 (outside).
    pub const REFUSE: u8 = 2;
}

/// The directions of a step.
///
/// ```
/// use hullashlar::{direction, locate_step_index};
///
/// let knots = [0.0, 1.0, 2.0];
/// assert_eq!(locate_step_index(&knots, direction::LOWER, 0.5), Ok(0));
/// assert_eq!(locate_step_index(&knots, direction::UPPER, 0.5), Ok(1));
/// ```
pub mod direction {
    /// To the last knot at or below the point.
    pub const LOWER: u8 = 0;
    /// To the first knot at or above the point.
    pub const UPPER: u8 = 1;
}
