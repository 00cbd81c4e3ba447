//! Writes the fixed list of cases to standard output.

use cases::list;
use std::io::{self, Write};

fn main() -> io::Result<()> {
    let bytes: Vec<u8> = list().into_iter().flat_map(u64::to_be_bytes).collect();
    io::stdout().write_all(&bytes)
}
