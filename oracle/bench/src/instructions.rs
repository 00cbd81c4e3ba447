//! Instructions of one call, counted by valgrind's callgrind. The program runs
//! itself under it; there only what happens within `counted_call` is counted,
//! and the count is written out each time it returns.

use crate::lines::Work;
use std::hint::black_box;
use std::path::Path;
use std::process::{self, Command, Stdio};
use std::{env, fs};

/// The argument with which the program makes the calls that are counted.
pub const COUNTED_CALLS: &str = "--counted-calls";

/// Calls before the counted one, so that nothing is done for the first time in it.
const CALLS_BEFORE: usize = 3;

/// The one function within which instructions are counted.
#[no_mangle]
#[inline(never)]
pub fn counted_call(work: &mut Work) -> f64 {
    work()
}

/// One counted call of each piece of work, in their order.
pub fn make_counted_calls<'a>(works: impl IntoIterator<Item = Work<'a>>) {
    for mut work in works {
        for _ in 0..CALLS_BEFORE {
            black_box(work());
        }
        black_box(counted_call(&mut work));
    }
}

/// The instructions of both sides of so many lines. Elsewhere than on x86-64 valgrind does not tell when a function returns, and
/// none are counted.
pub fn count(lines: usize) -> Vec<Option<[u64; 2]>> {
    if !cfg!(target_arch = "x86_64") {
        return vec![None; lines];
    }
    let folder = env::temp_dir().join(format!("hullashlar-bench-{}", process::id()));
    fs::create_dir_all(&folder).expect("the folder for the counts can be made");
    let counts = folder.join("count");
    run_under_callgrind(&counts);
    let count = |call: usize| read_count(&counts.with_extension((call + 1).to_string()));
    let both = |line| Some([count(2 * line), count(2 * line + 1)]);
    let instructions = (0..lines).map(both).collect();
    fs::remove_dir_all(&folder).expect("the folder for the counts can be removed");
    instructions
}

fn run_under_callgrind(counts: &Path) {
    let program = env::current_exe().expect("a program knows its own file");
    let ended = Command::new("valgrind")
        .args([
            "--tool=callgrind",
            "--toggle-collect=counted_call",
            "--dump-after=counted_call",
        ])
        .arg(format!("--callgrind-out-file={}", counts.display()))
        .arg(program)
        .arg(COUNTED_CALLS)
        .stderr(Stdio::null())
        .status()
        .expect("valgrind is installed");
    assert!(ended.success(), "the counted run ends well");
}

/// The sum that one of callgrind's files states.
fn read_count(file: &Path) -> u64 {
    let text = fs::read_to_string(file).expect("callgrind writes a file for each counted call");
    let sum = text.lines().find_map(|line| line.strip_prefix("summary: "));
    let sum = sum.expect("callgrind states the sum").trim();
    sum.parse().expect("the sum is a number")
}
