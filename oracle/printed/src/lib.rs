//! What our programs must print. Every number and every refusal comes from the
//! reading of the rules, over the unchanged files; no code of ours is asked.

mod changes;
mod cursor;
mod either_order;
mod grid;
mod host;
mod line;
mod one_axis;
mod queries;
mod refusals;
mod sheets;
mod surface;
mod verified;

pub use host::{firmware, host};

/// What a program prints for what stands on its standard input, or none where there
/// is no such program.
pub fn printed(program: &str, input: &[u8]) -> Option<String> {
    let text = match program {
        "sheet_tensor"
        | "trial_sheet_empty"
        | "trial_sheet_largest"
        | "trial_sheet_one_byte_more" => reading::sheet_text(input),
        "trial_sheet_cases" => sheets::tensors(input),
        "trial_one_axis" => one_axis::examples(),
        "trial_one_axis_refusals" => refusals::refusals(),
        "trial_tensor" => surface::examples(),
        "trial_verify" => verified::verified(),
        "trial_query" => queries::examples(),
        "trial_change" => changes::changes(),
        "trial_either_order" => either_order::either_order(),
        "device_curve" => reading::device_text(input),
        "trial_cursor_walk" => cursor::walks(),
        "sheet_report"
        | "trial_report_empty"
        | "trial_report_ends_inside"
        | "trial_report_of_refusals"
        | "trial_report_in_memory" => reading::Report::of(input).to_string(),
        "trial_replay" => replay(input),
        _ => return None,
    };
    Some(text)
}

/// Every case of the list is the same. The list begins with how many there are.
fn replay(list: &[u8]) -> String {
    let count = list.first_chunk().expect("the list begins with its count");
    let count = u64::from_be_bytes(*count);
    let lines: String = (1..=count).map(|case| format!("{case} same\n")).collect();
    format!("{lines}{count} cases, {count} the same\n")
}
