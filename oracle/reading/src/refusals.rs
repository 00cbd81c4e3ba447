//! The conditions behind the refusal numbers that several calls share.

/// A refusal by its number.
pub type Refusal = usize;

/// The scratch that a curve's moments want, and the surplus over the tensor in
/// the other calls.
pub const CURVE_SCRATCH: usize = 2048;

/// Refuses with a number unless the condition holds.
pub fn require(condition: bool, number: Refusal) -> Result<(), Refusal> {
    if condition {
        Ok(())
    } else {
        Err(number)
    }
}

/// 2 for one axis.
pub fn points_in_range(points: usize) -> bool {
    (2..=256).contains(&points)
}

/// 7 and 10 look for an infinity or NaN.
pub fn all_finite(numbers: &[f64]) -> bool {
    numbers.iter().all(|number| number.is_finite())
}

/// 8 for one axis: every knot is above the one before, by a step that is finite.
pub fn knots_rise(knots: &[f64]) -> bool {
    knots.windows(2).all(|pair| {
        // The one subtraction outside the unchanged files: the step that they
        // take is a local of theirs, and its overflow is what 8 is about.
        let step = pair[1] - pair[0];
        pair[0] < pair[1] && step.is_finite()
    })
}

/// Clears scratch once work has begun: on success, or on a refusal by 10.
pub fn clear_after_work(scratch: &mut [f64], refusal: Refusal) {
    if refusal == 0 || refusal == 10 {
        scratch.fill(0.0);
    }
}
