#!/usr/bin/env python3
"""Tries the edits beside this file, which the gate leaves out for their time: in a copy of the repository each is applied to its crate, and
the check must refuse it. With names of crates it tries those of these alone."""

import re
import shutil
import subprocess
import sys
import tempfile
from pathlib import Path

# `rt` calls an edit of a law bad where laws below that one, in the same file, were not looked at since the prover rejected it: it is refused all the same.
REJECTED = re.compile(r": BAD EDIT: .* declarations? that depends? on `[^`]*`, which was rejected, w\w+ not checked")

HERE = Path(__file__).resolve().parent
ROOT = HERE.parent.parent


def copied(folder, crates):
    """A copy of the crates, with these edits in place of the gate's."""
    copy = Path(folder)
    shutil.copytree(ROOT / "crates", copy / "crates", ignore=shutil.ignore_patterns("must-fail", "out"))
    shutil.copy(ROOT / "crates.txt", copy)
    for crate in crates:
        shutil.copytree(HERE / crate, copy / "crates" / crate / "must-fail")
    return copy


def main():
    edits = sorted(edit.parent.name for edit in HERE.glob("*/*.edit"))
    crates = sys.argv[1:] or sorted(set(edits))
    expected = sum(edit in crates for edit in edits)
    with tempfile.TemporaryDirectory() as folder:
        copy = copied(folder, crates)
        run = subprocess.run(["rt", "must-fail", *crates], cwd=copy, text=True, stdout=subprocess.PIPE)
    lines = [line for line in run.stdout.splitlines() if line.startswith("rt: must-fail ")]
    print("\n".join(lines))
    refused = sum(": refused, as it must be" in line or bool(REJECTED.search(line)) for line in lines)
    print(f"{expected} edits, {refused} refused")
    sys.exit(refused != expected)


if __name__ == "__main__":
    main()
