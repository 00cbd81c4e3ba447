//! The parts of the lines.

/// What outputs and scratch hold before a call.
pub const BEFORE: f64 = 7.0;

/// A space and the pattern of each number.
pub fn patterns(numbers: &[f64]) -> String {
    let pattern = |number: &f64| format!(" {:016X}", number.to_bits());
    numbers.iter().map(pattern).collect()
}

/// A space and each count.
pub fn counts(counts: &[usize]) -> String {
    counts.iter().map(|count| format!(" {count}")).collect()
}

/// Whether every number is the given one, bit for bit.
fn all_are(numbers: &[f64], number: f64) -> bool {
    let mut patterns = numbers.iter().map(|number| number.to_bits());
    patterns.all(|pattern| pattern == number.to_bits())
}

/// The numbers of an output, or that a refusal has not touched it.
pub fn output(refusal: usize, output: &[f64]) -> String {
    if refusal == 0 {
        return patterns(output);
    }
    assert!(all_are(output, BEFORE), "a refusal leaves its outputs");
    " output untouched".to_string()
}

/// What became of scratch, and the end of the line.
pub fn scratch(scratch: &[f64]) -> &'static str {
    if all_are(scratch, 0.0) {
        return " scratch cleared\n";
    }
    assert!(
        all_are(scratch, BEFORE),
        "scratch is cleared or left as it was"
    );
    " scratch untouched\n"
}
