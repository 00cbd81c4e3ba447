//! Our programs, run on what is given to them on standard input.

use std::env;
use std::io::{self, PipeWriter, Write};
use std::os::fd::AsRawFd;
use std::os::raw::c_int;
use std::path::Path;
use std::process::{Command, Stdio};
use std::thread;

/// Where the repository builds its programs.
const PROGRAMS: &str = concat!(env!("CARGO_MANIFEST_DIR"), "/../../target/bin");

/// What a program prints of an input. Where pieces have a size, each read of the program gets one
/// piece; where it is 0, whatever the pipe gives.
pub fn printed(name: &str, input: &[u8], piece: usize) -> Vec<u8> {
    let (reader, writer) = io::pipe().expect("a pipe can be made");
    if piece > 0 {
        keep_apart(&writer);
    }
    let program = command(&Path::new(PROGRAMS).join(name))
        .stdin(reader)
        .stdout(Stdio::piped())
        .spawn()
        .unwrap_or_else(|error| panic!("{name}, which `tools/build.sh {name}` builds: {error}"));
    let bytes = input.to_vec();
    // The program may have read enough before all is written.
    let writing = thread::spawn(move || drop(write(writer, &bytes, piece)));
    let printed = program.wait_with_output().expect("the program ends").stdout;
    writing.join().expect("the input was given");
    printed
}

/// A program as a command: behind the words of HULLASHLAR_RUNNER where these are set, as where
/// programs for x86-64 are emulated.
fn command(program: &Path) -> Command {
    let runner = env::var("HULLASHLAR_RUNNER").unwrap_or_default();
    let mut words = runner.split_whitespace();
    match words.next() {
        Some(first) => {
            let mut command = Command::new(first);
            command.args(words).arg(program);
            command
        }
        None => Command::new(program),
    }
}

fn write(mut writer: PipeWriter, input: &[u8], piece: usize) -> io::Result<()> {
    if piece == 0 {
        return writer.write_all(input);
    }
    let mut pieces = input.chunks(piece);
    pieces.try_for_each(|piece| writer.write_all(piece))
}

extern "C" {
    fn fcntl(file: c_int, command: c_int, ...) -> c_int;
}

/// The command that sets the flags of a file, and two of these.
const F_SETFL: c_int = 4;
const O_WRONLY: c_int = 1;
const O_DIRECT: c_int = if cfg!(target_arch = "x86_64") {
    0o40_000
} else {
    0o200_000
};

/// Makes a pipe one of packets: no read gets more than what one write gave.
fn keep_apart(writer: &PipeWriter) {
    // SAFETY: the file is open, and the command takes one number more.
    let failed = unsafe { fcntl(writer.as_raw_fd(), F_SETFL, O_WRONLY | O_DIRECT) };
    assert_eq!(failed, 0, "a pipe can be one of packets");
}

#[cfg(test)]
mod tests {
    use super::*;
    use std::io::Read;

    #[test]
    fn each_read_gets_one_piece() {
        let (mut reader, writer) = io::pipe().unwrap();
        keep_apart(&writer);
        write(writer, b"abcde", 2).unwrap();
        let mut buffer = [0; 64];
        let taken = [(); 4].map(|()| reader.read(&mut buffer).unwrap());
        assert_eq!(taken, [2, 2, 1, 0]);
    }
}
