#!/usr/bin/env python3
"""Makes each slip of slips.txt in a copy of the repository and runs the checks on it: a fault must be found in that file, with the words that the
slip says. Without a slip there must be none. With names of slips it tries these alone."""

from __future__ import annotations

import re
import shutil
import sys
import tempfile
from pathlib import Path
from typing import NamedTuple

import scripts
from checks import CHECKS, found_in
from repository import Fault, Repository

HERE = Path(__file__).resolve().parent
ROOT = HERE.parent.parent

# The scripts outside this folder have no slip of their own, and are left to the copy without one.
HERE_ALONE = [check for check in CHECKS if check is not scripts]


class Slip(NamedTuple):
    """One slip, as slips.txt has it."""

    name: str
    files: list[str]
    place: re.Pattern
    comes: str
    says: str


def slips() -> list[Slip]:
    """The slips of the file: paragraphs of fields."""
    found = []
    for paragraph in (HERE / "slips.txt").read_text().split("\n\n"):
        fields = dict(line.partition(":")[::2] for line in paragraph.splitlines() if not line.startswith("#"))
        if fields:
            comes = fields["comes"][1:] * int(fields.get("times", 1))
            place = re.compile(fields["place"][1:], re.M)
            found.append(Slip(fields["slip"].strip(), fields["files"].split(), place, comes, fields["says"].strip()))
    return found


def copied(folder: Path) -> Path:
    """A copy of all that is written."""
    for file in Repository(ROOT).files:
        (folder / file).parent.mkdir(parents=True, exist_ok=True)
        shutil.copy(ROOT / file, folder / file)
    return folder


def made(copy: Path, slip: Slip) -> str | None:
    """Makes a slip in the first of its files that has the place, and answers which."""
    for file in slip.files:
        path = copy / file
        if path.exists() and slip.place.search(path.read_text()):
            path.write_text(slip.place.sub(slip.comes, path.read_text(), count=1))
            return file
    return None


def tried(copy: Path, slip: Slip, before: set[Fault]) -> bool:
    """Whether the checks find a slip; the copy is then as it was."""
    file = made(copy, slip)
    if file is None:
        print(f"{slip.name}: no file has the place")
        return False
    faults = found_in(copy, HERE_ALONE)
    shutil.copy(ROOT / file, copy / file)
    found = [fault for fault in faults if fault not in before and fault.file == file and slip.says in fault.what]
    print(f"{slip.name}: {found[0] if found else f'not found in {file}'}", flush=True)
    return bool(found)


def main() -> None:
    chosen = [slip for slip in slips() if not sys.argv[1:] or slip.name in sys.argv[1:]]
    with tempfile.TemporaryDirectory() as folder:
        copy = copied(Path(folder))
        before = set(found_in(copy))
        found = sum([tried(copy, slip, before) for slip in chosen])
    print(f"{len(chosen)} slips, {found} found; without a slip {len(before)} faults")
    sys.exit(found != len(chosen) or bool(before))


if __name__ == "__main__":
    main()
