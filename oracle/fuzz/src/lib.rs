//! What a fuzzer runs: the calls that take a sheet and the programs, beside the reading of the
//! rules, on bytes that it chooses. All stands in one process, so that it sees what they do.

#[path = "../../differential/src/archive.rs"]
mod archive;
#[allow(dead_code)]
#[path = "../../differential/src/guarded.rs"]
mod guarded;
mod program;

use archive::Archive;
use cases::{compare_bytes, Bytes};
use std::process::abort;
use std::slice;

/// What each first byte says that the others are.
const CHOICES: [Bytes; 3] = [Bytes::Sheet, Bytes::Stream, Bytes::Curve];

/// The fuzzer's call: compares what the bytes are answered with, and ends the run where it differs.
///
/// # Safety
/// The bytes are live and as many as is said.
#[no_mangle]
pub unsafe extern "C" fn LLVMFuzzerTestOneInput(start: *const u8, length: usize) -> i32 {
    if length == 0 {
        return 0;
    }
    let (first, bytes) = slice::from_raw_parts(start, length)
        .split_first()
        .expect("there is a byte");
    let what = CHOICES[usize::from(*first) % CHOICES.len()];
    let report = compare_bytes(&Archive, what, bytes);
    if report.total().differences > 0 {
        println!("{report}");
        abort();
    }
    0
}
