#!/usr/bin/env python3
"""Runs the programs where standard input or standard output fails: one line on standard error says which, nothing is printed where the
input cannot be read, and the exit status is 0. A pipe that nobody reads any more is a failure like the others, since the toolchain has every
program ignore its signal. Input that ends early is no failure: a sheet cut at any byte is refused on standard output, and nothing is said on
standard error. With strace at hand it also counts the calls by which a tensor is printed
and by which a long stream is read, and interrupts writes: one that a signal interrupts counts as failed, and is not tried again."""

import os
import re
import shutil
import signal
import subprocess
import sys
import tempfile
from pathlib import Path

ROOT = Path(__file__).resolve().parent.parent
SHEET_PROGRAM = ROOT / "target" / "bin" / "sheet_tensor"
REPORT = ROOT / "target" / "bin" / "sheet_report"
DEVICE = ROOT / "target" / "bin" / "device_curve"
EXAMPLE = ROOT / "crates" / "sheet_tensor" / "stdin"
OF_TWO_AXES = ROOT / "tests" / "sheet_by_hand" / "two_axes.sheet"
CURVE = ROOT / "crates" / "device_curve" / "stdin"
LARGEST = ROOT / "crates" / "trial_sheet_largest" / "stdin"
NOT_READ = b"standard input could not be read\n"
NOT_WRITTEN = b"standard output could not be written\n"

# A stream of the largest sheets, and the fewest bytes that a read of it is to take.
STREAM = LARGEST.read_bytes() * 200
LARGE_READ = 262_144


def run(program, source, target=subprocess.PIPE, before=None):
    """What a program printed, what it said on standard error, and its exit status."""
    done = subprocess.run([program], stdin=source, stdout=target, stderr=subprocess.PIPE, preexec_fn=before)
    return done.stdout or b"", done.stderr, done.returncode


def unread_pipe():
    """A pipe to write to that nobody reads."""
    reader, writer = os.pipe()
    os.close(reader)
    return writer


def ignore_broken_pipes():
    signal.signal(signal.SIGPIPE, signal.SIG_IGN)


def run_on(program, given):
    """What a program printed of some bytes, what it said on standard error, and its exit status."""
    done = subprocess.run([program], input=given, stdout=subprocess.PIPE, stderr=subprocess.PIPE)
    return done.stdout, done.stderr, done.returncode


def report_of_a_cut(length):
    """The report of a stream of one sheet that was cut to so many bytes: it ends at once, or stops in that sheet."""
    orders = "".join(f"order {order} 0 0 {0:016X}\n" for order in range(5))
    counts, end = ("sheets 1\naccepted 0\nrefused 11 1\n", "stopped\n") if length else ("sheets 0\naccepted 0\n", "end\n")
    return (counts + orders + end).encode()


def hold_cuts(program, expect):
    """Every cut of a sheet, from no bytes to all but one: each is refused by 11, on standard output."""
    for name, sheet in (("the example", EXAMPLE.read_bytes()), ("a sheet of two axes", OF_TWO_AXES.read_bytes())):
        wanted = [(b"refused 11\n" if program == SHEET_PROGRAM else report_of_a_cut(length), b"", 0) for length in range(len(sheet))]
        got = [run_on(program, sheet[:length]) for length in range(len(sheet))]
        expect(f"{program.name}, {name} cut at each of its {len(sheet)} bytes", got, wanted)


def calls(program, name, source):
    """How many bytes each call of read or of write took, on standard input or standard output."""
    traced = subprocess.run(["strace", "-e", f"trace={name}", program], stdin=source, stdout=subprocess.DEVNULL, stderr=subprocess.PIPE)
    return [int(taken) for taken in re.findall(rb"^%s\([01],.* = (\d+)$" % name.encode(), traced.stderr, re.M)]


def run_interrupted(program, source, which):
    """The same as `run`, with these calls of write interrupted by a signal. A program that retries forever is killed."""
    interrupt = ["-e", "trace=write", "-e", f"inject=write:error=EINTR{which}"]
    done = subprocess.run(["timeout", "20", "strace", "-o", os.devnull, *interrupt, program], stdin=source, stdout=subprocess.PIPE, stderr=subprocess.PIPE)
    return done.stdout, done.stderr, done.returncode


def reads_of_a_stream():
    """The calls of read by which the report takes a long stream."""
    with tempfile.TemporaryFile() as stream:
        stream.write(STREAM)
        stream.seek(0)
        return calls(REPORT, "read", stream)


def main():
    faults = []

    def expect(name, got, wanted):
        print(f"{name}: {'as it must be' if got == wanted else str(got)[:300]}")
        if got != wanted:
            faults.append(name)

    directory = os.open("/", os.O_RDONLY)
    programs = ((SHEET_PROGRAM, EXAMPLE), (REPORT, EXAMPLE), (DEVICE, CURVE))
    for program, good in programs:
        expect(f"{program.name}, a directory as input", run(program, directory), (b"", NOT_READ, 0))
        expect(f"{program.name}, no input", run(program, None, before=lambda: os.close(0)), (b"", NOT_READ, 0))
        with open(good, "rb") as given, open("/dev/full", "wb") as full:
            expect(f"{program.name}, a full device as output", run(program, given, full), (b"", NOT_WRITTEN, 0))
        with open(good, "rb") as given:
            expect(f"{program.name}, no output", run(program, given, None, before=lambda: os.close(1)), (b"", NOT_WRITTEN, 0))
        with open(good, "rb") as given:
            expect(f"{program.name}, a pipe that nobody reads", run(program, given, unread_pipe()), (b"", NOT_WRITTEN, 0))
        with open(good, "rb") as given:
            ignoring = run(program, given, unread_pipe(), before=ignore_broken_pipes)
            expect(f"{program.name}, the same with the signal ignored", ignoring, (b"", NOT_WRITTEN, 0))
    for program in (SHEET_PROGRAM, REPORT):
        hold_cuts(program, expect)
    if shutil.which("strace"):
        with open(LARGEST, "rb") as sheet:
            expect("calls of write for the largest tensor", len(calls(SHEET_PROGRAM, "write", sheet)), 1)
        reads = reads_of_a_stream()
        expect(f"a stream in {len(reads)} calls of read", sum(reads), len(STREAM))
        # The last two take what is left and find the end.
        expect("all but the last two are large", min(reads[:-2]) >= LARGE_READ, True)
        for program, good in programs:
            with open(good, "rb") as given:
                expect(f"{program.name}, its first write interrupted", run_interrupted(program, given, ":when=1"), (b"", NOT_WRITTEN, 0))
            with open(good, "rb") as given:
                expect(f"{program.name}, every write interrupted", run_interrupted(program, given, ""), (b"", b"", 0))
    sys.exit(1 if faults else 0)


if __name__ == "__main__":
    main()
