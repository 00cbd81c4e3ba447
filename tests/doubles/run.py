#!/usr/bin/env python3
"""Holds the proved double arithmetic against the machine's own operations: run.py ROUNDS. Then does the same with copies that have a deliberate
error each (wrong.c). Fails where a proved call differs, or an error is not found."""

import re
import subprocess
import sys
from pathlib import Path

HERE = Path(__file__).resolve().parent
ROOT = HERE.parent.parent
OUT = ROOT / "target" / "doubles"
ARCHIVE = ROOT / "target" / "staticlib" / "libhullashlar_doubles.a"

# How many rounds an error must be found in.
FEW_ROUNDS = 100

# No word here lets the compiler reorder or fuse the machine's operations.
GCC = ["gcc", "-std=c11", "-Wall", "-Wextra", "-Werror", "-O2", "-ffp-contract=off", f"-I{ROOT / 'include'}", f"-I{HERE}"]

ERROR = re.compile(r"^uint\d+_t (wrong_([a-z]+)_\w+)\(", re.M)


def built(name, more):
    """The comparison as a program, with these words for the compiler."""
    program = OUT / name
    subprocess.run([*GCC, *more, HERE / "compare.c", OUT / "wrong.o", ARCHIVE, "-o", program], check=True)
    return program


def main():
    OUT.mkdir(parents=True, exist_ok=True)
    subprocess.run([*GCC, "-c", HERE / "wrong.c", "-o", OUT / "wrong.o"], check=True)
    wrong = subprocess.run([built("right", []), sys.argv[1]]).returncode != 0
    errors = ERROR.findall((HERE / "wrong.c").read_text())
    for error, call in errors:
        # the comparison's call takes the wrong name; wrong.c was compiled for itself, with the right one
        program = built(error, [f"-Dhullashlar_soft_{call}={error}"])
        run = subprocess.run([program, str(FEW_ROUNDS)], text=True, stdout=subprocess.PIPE)
        found = run.returncode == 1
        print(f"{error}: {'found' if found else 'NOT FOUND'}, {run.stdout.splitlines()[-1]}")
        wrong |= not found
    print(f"{len(errors)} deliberate errors")
    sys.exit(wrong or not errors)


if __name__ == "__main__":
    main()
