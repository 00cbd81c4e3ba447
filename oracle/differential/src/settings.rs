//! Which answers move where a host has set the processor's floats otherwise than the calls need it.

use crate::archive::Archive;
use cases::{compare_all, Calls, Case, Kind, Plan, KINDS};
use std::arch::asm;

/// The settings of MXCSR that a C program begins with: to the nearest, nothing flushed, no trap.
const USUAL: u32 = 0x1F80;

/// Other settings, by name.
const SETTINGS: [(&str, u32); 5] = [
    ("flush to zero", USUAL | 0x8000),
    ("subnormals taken for zero", USUAL | 0x0040),
    ("rounding down", USUAL | 0x2000),
    ("rounding up", USUAL | 0x4000),
    ("rounding toward zero", USUAL | 0x6000),
];

/// The kinds of which no answer moves: whole numbers, and patterns that are handed over.
const STANDING: [Kind; 5] = [
    Kind::Read,
    Kind::ReadEdition1,
    Kind::ShortSheet,
    Kind::CellValue,
    Kind::CursorNext,
];

/// The archive under a setting, which its calls alone are made with.
struct Under {
    setting: u32,
}

impl Calls for Under {
    fn run(&self, case: &mut Case) -> Option<usize> {
        set(self.setting);
        let answer = Archive.run(case);
        set(USUAL);
        answer
    }
}

fn set(setting: u32) {
    // SAFETY: every setting has all traps masked, and the usual one is back before a float is computed here.
    unsafe { asm!("ldmxcsr [{}]", in(reg) &setting, options(nostack)) };
}

/// Prints how many calls of each kind are answered otherwise under each setting. Whether all stand
/// of the kinds that are to stand, and of every other kind some move.
pub fn compare_under_each(seed: u64, calls: u64) -> bool {
    let plans = KINDS.into_iter().filter(|kind| is_called(*kind));
    println!(
        "seed {seed}; answers that move, of each setting: {}",
        SETTINGS.map(|(name, _)| name).join(", ")
    );
    let good = plans.map(|kind| {
        let plan = Plan::of_kind(
            seed,
            kind,
            Plan::of_each_kind(seed, calls).cases[kind as usize],
        );
        let counts = SETTINGS.map(|(_, setting)| compare_all(&Under { setting }, &plan).total());
        let moved = counts.clone().map(|counts| counts.differences);
        println!(
            "{}: {} calls, moved {moved:?}",
            kind.name(),
            counts[0].compared
        );
        (moved == [0; SETTINGS.len()]) == STANDING.contains(&kind)
    });
    let good: Vec<bool> = good.collect();
    good.into_iter().all(|good| good)
}

/// Whether a kind is made of calls of the archive that a setting reaches; a call with a slice of no
/// items has next to nothing to compute.
fn is_called(kind: Kind) -> bool {
    !kind.runs_a_program() && !matches!(kind, Kind::Example | Kind::EmptySlice)
}
