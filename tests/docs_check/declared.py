"""Declarations: the exported calls are the same, with as many parameters, in the headers, in the code that exports them and in the declarations for
Rust; the archive's crate exports those of the library, with the same clauses; the Python package has each of them, and the header's sizes and names
of refusals."""

import re
from typing import Iterator

from repository import Fault, Repository, line_of

HEADER = "include/hullashlar.h"
EXPORTS = {HEADER: "crates/hullashlar_c/src/lib.rt", "include/hullashlar_doubles.h": "crates/hullashlar_doubles/src/lib.rt"}
LIBRARY = "crates/hullashlar/src/lib.rt"


def exported_by(text: str) -> dict[str, int]:
    """The calls that the code exports, and how many parameters each has in C: a slice is two."""
    found = {}
    for name, parameters in re.findall(r'pub extern "C" fn (\w+)\(([^)]*)\)', text):
        kinds = [part.split(":")[1] for part in parameters.split(",") if ":" in part]
        found[name] = len(kinds) + sum("[" in kind for kind in kinds)
    return found


def stated_by(text: str) -> dict[str, str]:
    """Each exported call of the code from its name to the brace of its body: its parameters and its clauses."""
    return dict(re.findall(r'pub extern "C" fn (\w+)(\(.*?)\n\{\n', text, re.S))


def library_faults(repository: Repository) -> Iterator[Fault]:
    """The archive's crate states each call as the library does, and hands it over."""
    text, exports = repository.text(EXPORTS[HEADER]), stated_by(repository.text(EXPORTS[HEADER]))
    library = stated_by(repository.text(LIBRARY))
    for name in sorted(exports.keys() | library.keys()):
        line = line_of(text, max(text.find(f"fn {name}("), 0))
        if " ".join(exports.get(name, "").split()) != " ".join(library.get(name, "").split()):
            yield Fault(EXPORTS[HEADER], line, f"{name} is not stated as in {LIBRARY}")
        elif f"    hullashlar::{name}(" not in text:
            yield Fault(EXPORTS[HEADER], line, f"{name} does not call hullashlar::{name}")


def declared_for_rust(text: str) -> dict[str, int]:
    pairs = re.findall(r"pub fn (hullashlar_\w+)\(([^)]*)\)", text)
    return {name: len([part for part in parameters.split(",") if ":" in part]) for name, parameters in pairs}


def compared(repository: Repository, header: str, file: str, there: dict[str, int]) -> Iterator[Fault]:
    here = {name: (call.line, len(call.parameters)) for name, call in repository.exported[header].items()}
    for name in sorted(here.keys() | there.keys()):
        if name not in there:
            yield Fault(header, here[name][0], f"{name} is not in {file}")
        elif name not in here:
            line = line_of(repository.text(file), repository.text(file).index(name))
            yield Fault(file, line, f"{name} is not in {header}")
        elif here[name][1] != there[name]:
            yield Fault(header, here[name][0], f"{name} has {here[name][1]} parameters here and {there[name]} in {file}")


def faults(repository: Repository) -> Iterator[Fault]:
    for header, code in EXPORTS.items():
        if header in repository.exported:
            yield from compared(repository, header, code, exported_by(repository.text(code)))
    for name in repository.matching(r"(?:include|rust|oracle)/.*\.rs"):
        there = declared_for_rust(repository.text(name))
        if 2 * len(there) > len(repository.calls):
            yield from compared(repository, HEADER, name, there)
    yield from library_faults(repository)
    yield from python_faults(repository)


def python_faults(repository: Repository) -> Iterator[Fault]:
    calls, refusals = "python/hullashlar/_calls.py", "python/hullashlar/refusals.py"
    for name in repository.calls:
        if not re.search(rf'"(?:hullashlar_)?{name.removeprefix("hullashlar_")}"', repository.text(calls)):
            yield Fault(calls, 1, f"{name} is not declared")
    sizes = dict(re.findall(r"HULLASHLAR_(\w+) = (\d+)", repository.text(HEADER)))
    for line, text in repository.lines(calls):
        if (match := re.match(r"([A-Z_]+) = (\d+)$", text)) and sizes.get(match[1], match[2]) != match[2]:
            yield Fault(calls, line, f"{match[1]} is {sizes[match[1]]} in {HEADER}")
    said = {int(number): name for number, name in re.findall(r'^    (\d+): \("(\w+)"', repository.text(refusals), re.M)}
    if said != repository.refusals:
        yield Fault(refusals, 1, f"the refusals are not those of {HEADER}")
