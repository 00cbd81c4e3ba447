#!/usr/bin/env python3
"""Proves every crate of the commit before each landing and of its last one from nothing, each in a clone of its own, and prints
how long that took by the clock and of processor time. With names of landings it takes those alone."""

import re
import resource
import subprocess
import sys
import tempfile
import time
from pathlib import Path

HERE = Path(__file__).resolve().parent
ROOT = HERE.parent.parent


def landings(wanted):
    """Name, commit before and last commit of each landing of the list, or of those that are wanted."""
    lines = (HERE / "landings.txt").read_text().splitlines()
    rows = [line.split() for line in lines if line and not line.startswith("#")]
    unknown = set(wanted) - {name for name, _, _ in rows}
    if unknown:
        sys.exit(f"no such landing: {' '.join(sorted(unknown))}")
    return [row for row in rows if not wanted or row[0] in wanted]


def processor_seconds():
    """What all programs run so far have used, in the system too."""
    used = resource.getrusage(resource.RUSAGE_CHILDREN)
    return used.ru_utime + used.ru_stime


def outcome(said):
    """How many crates were proved, and which were not."""
    proved = re.findall(r"^rt: (\S+) proved", said, re.MULTILINE)
    refused = re.findall(r"^rt: (\S+) NOT PROVED", said, re.MULTILINE)
    return f"{len(proved)} crates proved" + (f", not {' '.join(refused)}" if refused else "")


def proved(commit):
    """What `rt prove` says of a commit, and its seconds by the clock and of processor time."""
    with tempfile.TemporaryDirectory() as clone:
        subprocess.run(["git", "clone", "-q", "--no-checkout", ROOT, clone], check=True)
        subprocess.run(["git", "-C", clone, "checkout", "-q", commit], check=True)
        clock, processor = time.monotonic(), processor_seconds()
        run = subprocess.run(["rt", "prove"], cwd=clone, stdout=subprocess.PIPE, stderr=subprocess.STDOUT, text=True)
        return outcome(run.stdout), time.monotonic() - clock, processor_seconds() - processor


def main():
    measured = {}
    for name, before, last in landings(sys.argv[1:]):
        for place, commit in (("before", before), ("after", last)):
            if commit not in measured:
                measured[commit] = proved(commit)
            said, clock, processor = measured[commit]
            print(f"{name} {place} {commit}: {processor:.0f} s of processor time, {clock:.0f} s by the clock, {said}", flush=True)


if __name__ == "__main__":
    main()
