//! Stand-in for the part of num-traits that the unchanged files use, for f64.

use std::ops::{Add, Div, Mul, Neg, Sub};

/// A number with a zero.
pub trait Zero: Sized + Add<Self, Output = Self> {
    /// The zero.
    fn zero() -> Self;
    /// Whether this is a zero; for floats of either sign.
    fn is_zero(&self) -> bool;
}

/// A number with a one.
pub trait One: Sized + Mul<Self, Output = Self> {
    /// The one.
    fn one() -> Self;
}

/// A number that may be carried over to a whole number.
pub trait ToPrimitive {
    /// The number without its fraction, or none where it does not fit.
    fn to_usize(&self) -> Option<usize>;
}

/// A floating-point number.
pub trait Float:
    Zero
    + One
    + ToPrimitive
    + Copy
    + PartialOrd
    + Sub<Output = Self>
    + Div<Output = Self>
    + Neg<Output = Self>
{
    /// The distance from one to the next number above it.
    fn epsilon() -> Self;
    /// The number without its sign.
    fn abs(self) -> Self;
    /// The largest whole number that is not above.
    fn floor(self) -> Self;
}

impl Zero for f64 {
    fn zero() -> Self {
        0.0
    }

    fn is_zero(&self) -> bool {
        *self == 0.0
    }
}

impl One for f64 {
    fn one() -> Self {
        1.0
    }
}

impl ToPrimitive for f64 {
    fn to_usize(&self) -> Option<usize> {
        // 2^64 is the first number that does not fit; the fraction is cut off,
        // so everything above -1 does.
        let first_above = 18_446_744_073_709_551_616.0;
        if *self > -1.0 && *self < first_above {
            Some(*self as usize)
        } else {
            None
        }
    }
}

impl Float for f64 {
    fn epsilon() -> Self {
        f64::EPSILON
    }

    fn abs(self) -> Self {
        f64::abs(self)
    }

    fn floor(self) -> Self {
        f64::floor(self)
    }
}

#[cfg(test)]
mod tests {
    use super::*;

    #[test]
    fn the_zero_is_positive_and_both_zeros_are_zero() {
        assert_eq!(<f64 as Zero>::zero().to_bits(), 0);
        assert!((-0.0f64).is_zero());
        assert!(!f64::MIN_POSITIVE.is_zero());
    }

    #[test]
    fn whole_numbers_are_cut_off_and_refused_outside_the_range() {
        assert_eq!(2.9f64.to_usize(), Some(2));
        assert_eq!((-0.9f64).to_usize(), Some(0));
        assert_eq!((-1.0f64).to_usize(), None);
        assert_eq!(1.9e19f64.to_usize(), None);
        assert_eq!(f64::NAN.to_usize(), None);
    }
}
