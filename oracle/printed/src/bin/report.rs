//! Prints the report of the stream on standard input, by the reading.

use reading::Report;
use std::io::{self, Read};

fn main() -> io::Result<()> {
    let mut stream = Vec::new();
    io::stdin().read_to_end(&mut stream)?;
    print!("{}", Report::of(&stream));
    Ok(())
}
