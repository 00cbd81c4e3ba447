//! The tables, as the documents of the repository have them.

use crate::lines::Line;
use crate::points::Timed;
use crate::stack::Stack;

/// What was measured of a line, ours first.
pub struct Row {
    name: &'static str,
    held_against: &'static str,
    /// Nothing where none were counted.
    instructions: Option<[f64; 2]>,
    nanoseconds: [f64; 2],
}

/// The rows of so many lines.
pub fn rows(
    lines: &[Line],
    instructions: &[Option<[u64; 2]>],
    nanoseconds: &[[f64; 2]],
) -> Vec<Row> {
    let measured = instructions.iter().zip(nanoseconds);
    let row = |(line, (counts, times)): (&Line, (&Option<[u64; 2]>, &[f64; 2]))| Row {
        name: line.name,
        held_against: line.held_against,
        instructions: counts.map(|both| both.map(|count| count as f64)),
        nanoseconds: *times,
    };
    lines.iter().zip(measured).map(row).collect()
}

/// One row for each line; a ratio says how many times ours the other side needs.
pub fn print_lines(rows: &[Row]) {
    println!("| Call | Held against | Instructions, ours | the other | ratio | Nanoseconds, ours | the other | ratio |");
    println!("|---|---|--:|--:|--:|--:|--:|--:|");
    for row in rows {
        let count = counted(row.instructions, |ours, other| other / ours);
        let time = columns(row.nanoseconds, |ours, other| other / ours);
        println!("| {} | {} | {count} | {time} |", row.name, row.held_against);
    }
}

/// One row for each line of the limit; here a ratio says how many times the limit ours needs.
pub fn print_limit(rows: &[Row]) {
    println!();
    if rows.is_empty() {
        println!("The limit is not at hand: LIMIT_SRC names the folder of its C.");
        return;
    }
    println!(
        "| Call | Instructions, ours | the limit | ratio | Nanoseconds, ours | the limit | ratio |"
    );
    println!("|---|--:|--:|--:|--:|--:|--:|");
    for row in rows {
        let count = counted(row.instructions, |ours, limit| ours / limit);
        let time = columns(row.nanoseconds, |ours, limit| ours / limit);
        println!("| {} | {count} | {time} |", row.name);
    }
}

/// One row for each call that is asked at points, of one point; a ratio says how many times the limit ours needs.
pub fn print_points(calls: &[Timed], instructions: &[Option<[u64; 2]>]) {
    if calls.is_empty() {
        return;
    }
    println!();
    println!("| Call | Points without a pattern, nanoseconds, ours | the limit | ratio | Few points, ours | the limit | ratio | Instructions, ours | the limit | ratio |");
    println!("|---|--:|--:|--:|--:|--:|--:|--:|--:|--:|");
    let ratio = |ours, limit| ours / limit;
    for (call, counts) in calls.iter().zip(instructions) {
        let times = [call.without_pattern, call.few].map(|both| columns(both, ratio));
        let of_a_point = counts.map(|both| both.map(|count| count as f64 / call.counted as f64));
        let count = counted(of_a_point, ratio);
        println!("| {} | {} | {count} |", call.name, times.join(" | "));
    }
}

/// The columns of instructions, which are dashes where none were counted.
fn counted(both: Option<[f64; 2]>, ratio: fn(f64, f64) -> f64) -> String {
    both.map_or("- | - | -".into(), |both| columns(both, ratio))
}

/// Ours, the other, and their ratio.
fn columns(both: [f64; 2], ratio: fn(f64, f64) -> f64) -> String {
    let [ours, other] = both.map(|number| grouped(number.round() as u64));
    format!("{ours} | {other} | {:.2}", ratio(both[0], both[1]))
}

/// One row for each exported call.
pub fn print_stacks(stacks: &[Stack]) {
    println!();
    println!("| Exported call | Stack bytes |");
    println!("|---|--:|");
    for stack in stacks {
        println!("| `{}` | {} |", stack.call, grouped(stack.bytes as u64));
    }
}

/// A number with a comma before every three digits.
fn grouped(number: u64) -> String {
    let digits = number.to_string();
    let mut text = String::new();
    for (place, digit) in digits.chars().enumerate() {
        if place > 0 && (digits.len() - place).is_multiple_of(3) {
            text.push(',');
        }
        text.push(digit);
    }
    text
}
