#!/usr/bin/env python3
"""Runs copies of our code, each with one deliberate error in it, on the oracle's fixed list of answers (crates/trial_replay),
and fails unless the list finds every error: some case differs. What no exported call shows is looked for in the report
of a stream, whose kept output is the oracle's too.

A copy with an error in it cannot be proved, so it is run by `rt try`, which takes every crate as source and compiles it with checks. The
interpreter that `rt try` begins with is too slow for the list: it is stopped at its first step. An error with which the program
stops at one of those checks is found too."""

import re
import shutil
import subprocess
import sys
import tempfile
from pathlib import Path

HERE = Path(__file__).resolve().parent
ROOT = HERE.parent.parent

# CRATE/NAME of each error. It is an edit in crates/CRATE/must-fail or in tests/further_edits/CRATE or, where none there says it, in CRATE
# beside this file.
ERRORS = [
    "tensor_passes/cross_pass_keeps_its_number",
    "tensor_starts/lanes_through_the_point_alone",
    "tensor_passes/lanes_through_the_point_counted_as_all",
    "tensor_passes/axes_in_falling_order",
    "axis_solve/corner_dropped_from_u_vec",
    "axis_solve/corner_dropped_for_two_intervals",
    "axis_moments/one_interval_to_the_cyclic_solve",
    "axis_moments/reciprocal_of_six_in_a_slope",
    "axis_moments/reciprocal_of_six_in_the_curve",
    "axis_locate/cell_k_at_interior_knot_k",
    "query_answer/reciprocal_of_the_width",
    "query_answer/label_of_the_next_cell",
    "c_query/full_query_for_the_quick_one",
    "axis_locate/end_knot_taken_as_outside",
    "axis_even/cell_before_the_knot",
    "sheet_write/upper_value_first",
    "step_axis/upward_corner_mended",
    "device_cell/slopes_exchanged",
    "device_cell/half_below_zero_up",
    "sheet_read/mode_read_from_the_upper_kind",
    "grid_codes/mode_dropped_in_edition_1",
    "query_answer/mode_of_the_first_axis_for_all",
    "sheet_patterns/minus_zero_unused",
    "sheet_surface/tensor_of_512_refused",
    "tensor_verify/values_in_place_of_bits",
    "query_direct/found_cell_not_looked_at",
    "query_many/coordinates_of_the_first_point",
    "query_profile/place_of_8_told_after_7",
    "step_many/refusal_of_knots_for_each_point",
]

# The errors that the report of a stream of many sheets is to find.
REPORT = "trial_report_of_refusals"
REPORT_ERRORS = [
    "report_totals/mask_for_the_order",
    "report_totals/minus_zero_as_a_number",
    "report_totals/largest_with_its_sign",
    "grid_codes/report_goes_on_after_14",
]

# What the last line of the replay says.
COUNTS = re.compile(rb"(\d+) cases, (\d+) the same\n\Z")

# The status of `rt try` where the program stopped at a check.
STOPPED = 4


def apply(error, copy):
    """Makes an edit in a copy: each old text, which must stand in its file once, gives way to the new one."""
    crate, name = error.split("/")
    folders = [ROOT / "crates" / crate / "must-fail", HERE.parent / "further_edits" / crate, HERE / crate]
    edit = next(path for folder in folders if (path := folder / f"{name}.edit").exists())
    for line in edit.read_text().splitlines():
        word, _, text = line.partition(":")
        text = text.removeprefix(" ")
        if word == "file":
            file = copy / "crates" / crate / text
        elif word == "old":
            old = text
        elif word == "new":
            before = file.read_text()
            if before.count(old) != 1:
                sys.exit(f"{error}: not just once in {file.relative_to(copy)}: {old}")
            file.write_text(before.replace(old, text))


def copy_sources(copy):
    """Copies the crates without their proofs; the copied replay prints the counts alone."""
    left_out = shutil.ignore_patterns("specs", "proofs", "must-fail", "out")
    shutil.copytree(ROOT / "crates", copy / "crates", ignore=left_out)
    shutil.copy(ROOT / "crates.txt", copy)
    apply("trial_replay/counts_alone", copy)


def tried(program, error):
    """What a program prints in a copy with this error, and whether it ended by itself."""
    with tempfile.TemporaryDirectory() as folder:
        copy = Path(folder)
        copy_sources(copy)
        if error:
            apply(error, copy)
        crate = copy / "crates" / program
        with open(crate / "stdin", "rb") as given:
            run = subprocess.run(["rt", "try", "--steps", "1"], cwd=crate, stdin=given, stdout=subprocess.PIPE, stderr=subprocess.PIPE)
    if run.returncode not in (0, STOPPED):
        sys.exit(f"{error or 'unchanged'}: {program} was not run:\n{run.stderr.decode(errors='replace')}")
    return run.stdout, run.returncode == 0


def replay(error=None):
    """How many cases the list has, and how many of them a copy with this error answers as the list says: none where it stopped."""
    printed, has_ended = tried("trial_replay", error)
    counts = COUNTS.search(printed)
    if has_ended and not counts:
        sys.exit(f"{error or 'unchanged'}: the replay has no counts:\n{printed.decode(errors='replace')}")
    return map(int, counts.groups()) if has_ended else (1, 0)


def is_reported(error=None):
    """Whether a copy with this error prints the report that is kept."""
    printed, has_ended = tried(REPORT, error)
    return has_ended and printed == (ROOT / "crates" / REPORT / "stdout").read_bytes()


def report_errors_missed():
    """The errors with which the report of the stream is the one that is kept."""
    if not is_reported():
        sys.exit("our code itself prints another report")
    missed = []
    for error in REPORT_ERRORS:
        same = is_reported(error)
        print(f"{error}: {'the same report' if same else 'another report'}", flush=True)
        if same:
            missed.append(error)
    return missed


def main():
    missed = report_errors_missed()
    cases, same = replay()
    print(f"unchanged: {same} of {cases} cases the same", flush=True)
    if same != cases:
        sys.exit("our code itself differs from the list")
    for error in ERRORS:
        cases, same = replay(error)
        print(f"{error}: {cases - same} of {cases} cases differ", flush=True)
        if same == cases:
            missed.append(error)
    if missed:
        sys.exit(f"NOT FOUND: {' '.join(missed)}")
    print(f"all {len(REPORT_ERRORS) + len(ERRORS)} errors found")


if __name__ == "__main__":
    main()
