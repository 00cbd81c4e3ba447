#!/usr/bin/env python3
"""Fuzzes the calls that take a sheet, and the programs, with the oracle as judge in the same process: run.py SECONDS [FILE...], with files
to run these alone. The archive's own module, kept as firmware/module.py keeps it, and the oracle are compiled so that the fuzzer
sees which parts of them its bytes reach; the programs are their proved objects, reading and writing in the process. The corpus beside
this file is where the fuzzer begins; what it finds goes to target/fuzz. Wants Debian's clang and libclang-rt-14-dev, and x86-64."""

import os
import subprocess
import sys
from pathlib import Path

HERE = Path(__file__).resolve().parent
ROOT = HERE.parent.parent
OUT = ROOT / "target" / "fuzz"
sys.dont_write_bytecode = True
sys.path.insert(0, str(ROOT / "firmware"))
from module import CPU, WORDS, X86_64, hold_to_the_archive, kept, run, tool  # noqa: E402

CRATE = "hullashlar_c"
COVERAGE = "-fsanitize-coverage=inline-8bit-counters,pc-table,trace-cmp"
RUST_COVERAGE = ["passes=sancov-module", "codegen-units=1", "panic=abort", *(f"llvm-args=-sanitizer-coverage-{word}" for word in (
    "level=4", "inline-8bit-counters", "pc-table", "trace-compares"))]
RUST_TARGET = "x86_64-unknown-linux-gnu"
PROGRAMS = ["sheet_tensor", "sheet_report", "device_curve"]

# The most bytes of an input: a stream of several sheets, or a sheet of four axes.
LONGEST = 4096


def compiled_archive():
    """The archive's module as code that tells what it reaches."""
    module = kept(CRATE, "lib")
    hold_to_the_archive(CRATE, module)
    code = OUT / f"{CRATE}.o"
    run([tool("clang"), *X86_64, *WORDS, COVERAGE, "-c", "-x", "ir", module, "-o", code])
    return code


def program(name):
    """A program's object with its main, its reads and its writes under other names."""
    folder = ROOT / "crates" / name
    run(["rt", "run", *CPU], cwd=folder, stdin=subprocess.DEVNULL, stdout=subprocess.DEVNULL)
    code = OUT / f"{name}.o"
    names = {"main": f"{name}_main", "read": "program_read", "write": "program_write"}
    run(["objcopy", *(f"--redefine-sym={old}={new}" for old, new in names.items()), folder / "out" / f"{name}.o", code])
    return code


def judge():
    """The oracle, and what the fuzzer calls."""
    flags = "\x1f".join(word for flag in RUST_COVERAGE for word in ("-C", flag))
    environment = {**os.environ, "CARGO_ENCODED_RUSTFLAGS": flags, "CARGO_TARGET_DIR": str(OUT / "cargo")}
    run(["cargo", "build", "--offline", "--release", "-p", "fuzz", "--target", RUST_TARGET], cwd=ROOT / "oracle", env=environment)
    return OUT / "cargo" / RUST_TARGET / "release" / "libfuzz.a"


def main():
    OUT.mkdir(parents=True, exist_ok=True)
    fuzzer = OUT / "fuzz"
    parts = [judge(), compiled_archive(), *map(program, PROGRAMS)]
    run(["clang++", "-fsanitize=fuzzer", *parts, "-lpthread", "-ldl", "-lm", "-o", fuzzer])
    found = OUT / "corpus"
    found.mkdir(exist_ok=True)
    words = [f"-max_total_time={sys.argv[1]}", f"-max_len={LONGEST}", "-timeout=20", "-print_final_stats=1", f"-artifact_prefix={OUT}/"]
    sys.exit(subprocess.run([fuzzer, *words, *(sys.argv[2:] or [found, HERE / "corpus"])]).returncode)


if __name__ == "__main__":
    main()
