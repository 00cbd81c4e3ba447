#!/usr/bin/env python3
"""Holds the proofs and the code against what a reader needs: a file of each function's proof begins with a sentence that says what is
shown, no two begin alike, and no line of the code, the definitions or the laws is longer than WIDTH. Imports, which the toolchain lays out,
and answers, which name goals and places as the toolchain does, have lines as long as they are."""

import re
import sys
from pathlib import Path

ROOT = Path(__file__).resolve().parent.parent
WIDTH = 150
MARK = "-- "

# The files of a function's proof, one of which begins with what is shown.
OF_A_PROOF = ["Answers.antt", "Invariants.antt", "Proof.antt"]
IMPORT = re.compile(r"\s*(?:ghost )?use ")


def written(ending):
    """What is written in the crates' files of this ending."""
    return sorted(path for part in ("src", "specs", "proofs") for path in (ROOT / "crates").glob(f"*/{part}/**/*{ending}"))


def header(path):
    """The comment that a file begins with, as one line; empty where it begins with none."""
    lines = []
    for line in path.read_text().splitlines():
        if not line.startswith(MARK) or line.startswith(MARK + "----"):
            break
        lines.append(line.removeprefix(MARK))
    return " ".join(lines)


def headers():
    """What is wrong with the first words of the proofs, and how many there are."""
    folders = sorted({path.parent for path in written(".antt") if path.name in OF_A_PROOF and path.parent.name != "proofs"})
    first, faults = {}, []
    for folder in folders:
        files = [folder / name for name in OF_A_PROOF if (folder / name).is_file()]
        path = next(filter(header, files), files[0])
        name, words = path.relative_to(ROOT), header(path)
        if not words.endswith("."):
            faults.append(f"{name}: does not begin with a sentence")
        elif words in first:
            faults.append(f"{name}: begins as {first[words]} does")
        first.setdefault(words, name)
    return faults, len(folders)


def lines():
    """The lines that are too long, and the longest there is."""
    faults, longest = [], 0
    for path in [*written(".rt"), *written(".antt")]:
        is_answer = path.name in OF_A_PROOF and path.parent.name != "proofs"
        for number, line in enumerate(path.read_text().splitlines(), 1):
            if is_answer or IMPORT.match(line):
                continue
            longest = max(longest, len(line))
            if len(line) > WIDTH:
                faults.append(f"{path.relative_to(ROOT)}:{number}: {len(line)} characters")
    return faults, longest


def main():
    without, proofs = headers()
    long, longest = lines()
    faults = without + long
    print(f"{proofs} proofs, the longest line has {longest} characters, {len(faults)} faults")
    sys.exit("\n".join(faults) or 0)


if __name__ == "__main__":
    main()
