//! The largest sheet that the program is run on is as long as any accepted sheet can be.

use printed::printed;
use reading::LONGEST_TENSOR;
use std::fs;
use std::path::Path;

fn input(program: &str) -> Vec<u8> {
    let crates = Path::new(env!("CARGO_MANIFEST_DIR")).join("../../crates");
    fs::read(crates.join(program).join("stdin")).unwrap()
}

/// The bits of a sheet of a shape in edition 2, every end of which has a value.
fn bits(points: &[usize]) -> usize {
    let axis = |count: &usize| 8 + 2 + 2 + 2 + 64 * (2 + count);
    let axes: usize = points.iter().map(axis).sum();
    4 + 3 + axes + 64 * points.iter().product::<usize>()
}

/// Whether the tensor of a shape does not pass its limit.
fn fits(points: &[usize]) -> bool {
    points.iter().product::<usize>() << points.len() <= LONGEST_TENSOR
}

/// The most bits of a sheet that begins with these axes.
fn most_bits(points: &mut Vec<usize>) -> usize {
    let mut most = if points.is_empty() { 0 } else { bits(points) };
    if points.len() < 4 {
        for count in 2..=256 {
            points.push(count);
            if fits(points) {
                most = most.max(most_bits(points));
            }
            points.pop();
        }
    }
    most
}

#[test]
fn no_accepted_sheet_is_longer() {
    let longest = most_bits(&mut Vec::new()).div_ceil(8);
    let sheet = input("trial_sheet_largest");
    assert_eq!(sheet.len(), longest);
    let text = printed("trial_sheet_largest", &sheet).unwrap();
    assert!(text.starts_with("tensor 4096\n"));
}

#[test]
fn one_byte_more_is_refused() {
    let mut longer = input("trial_sheet_largest");
    longer.push(0);
    assert_eq!(input("trial_sheet_one_byte_more"), longer);
    let text = printed("trial_sheet_one_byte_more", &longer).unwrap();
    assert_eq!(text, "refused 14\n");
}
