#!/usr/bin/env python3
"""Finds laws that are said more than once: statements at a file's outermost level that are equal once their bound names are numbered.
Fails on each that is not among KNOWN, and on one of KNOWN that is no longer there."""

import re
import sys
from pathlib import Path

ROOT = Path(__file__).resolve().parent.parent

# Laws whose crates have nothing in common but the kit, which does not have them; and names that each file makes its own.
KNOWN = {
    ("doubles_patterns/proofs/Values.antt sub_mul", "exact_rounding/proofs/Operations.antt sub_mul"),
    ("device_cursor/proofs/Walks.antt below_or_not", "tensor_fours/proofs/Fours.antt below_or_not"),
    ("device_cell/proofs/Given.antt number_some", "rules/proofs/Given.antt number_some"),
    ("query_measured/proofs/EvenExample.antt on_the_grid", "query_measured/proofs/Example.antt on_the_grid"),
    ("query_measured/proofs/EvenExample.antt equal_knots", "query_measured/proofs/Example.antt equal_knots"),
}

LAW = re.compile(r"^(?:pub )?([^\s:(]+) :\s+(.*?)(?=^\S|\Z)", re.M | re.S)
BINDER = re.compile(r"[({]([^():{}]+) : ")
WORD = re.compile(r"[^\s(){},.]+")
SAYS = re.compile(r" [≡≤<≢] |⊎| × |→ ⊥")


def shape(statement):
    """The statement with its bound names numbered in their order."""
    text = " ".join(statement.split())
    bound = [name for names in BINDER.findall(text) for name in names.split()]
    numbers = {name: f"${bound.index(name)}" for name in bound}
    return WORD.sub(lambda match: numbers.get(match[0], match[0]), text)


def laws():
    """Each law that says something of bound names: its shape, and where it stands."""
    crates = ROOT / "crates"
    for path in sorted(crates.glob("*/proofs/**/*.antt")):
        if path.name in ("Proof.antt", "Invariants.antt", "Answers.antt", "Lib.antt"):
            continue
        for match in LAW.finditer(path.read_text()):
            form = shape(match[2])
            if "$0" in form and SAYS.search(form):
                yield form, f"{path.relative_to(crates)} {match[1]}"


def main():
    places = {}
    for form, place in laws():
        places.setdefault(form, []).append(place)
    found = {tuple(group): form for form, group in places.items() if len(group) > 1}
    faults = [f"{', '.join(group)}: {form}" for group, form in found.items() if group not in KNOWN]
    faults += [f"{', '.join(group)}: no longer said twice" for group in KNOWN if group not in found]
    print(f"{sum(map(len, places.values()))} laws, {len(found)} said more than once, {len(faults)} faults")
    sys.exit("\n".join(faults) or 0)


if __name__ == "__main__":
    main()
