"""The version: the header has it once, in one piece and in three, and the newest change, the Python package and the Rust package have the same."""

import re
from typing import Iterator

from repository import Fault, Repository, line_of

HEADER = "include/hullashlar.h"
SAID = re.compile(r'^#define HULLASHLAR_VERSION "([\d.]+)"', re.M)

# Where else it is said.
PLACES = [
    (r"CHANGELOG\.md", r"^## ([\d.]+)"),
    (r"python/pyproject\.toml", r'^version = "([\d.]+)"'),
    (r"rust/(?:.*/)?Cargo\.toml", r'^version = "([\d.]+)"'),
]


def faults(repository: Repository) -> Iterator[Fault]:
    text = repository.text(HEADER)
    found = list(SAID.finditer(text))
    if not found:
        return
    version = found[0][1]
    for again in found[1:]:
        yield Fault(HEADER, line_of(text, again.start()), "HULLASHLAR_VERSION is defined once more")
    parts = re.findall(r"^#define HULLASHLAR_VERSION_(?:MAJOR|MINOR|PATCH) (\d+)", text, re.M)[:3]
    if parts and ".".join(parts) != version:
        yield Fault(HEADER, line_of(text, found[0].start()), f"the version is {version}, and its parts are {'.'.join(parts)}")
    for names, said in PLACES:
        for name in repository.matching(names):
            there = re.search(said, repository.text(name), re.M)
            if there and there[1] != version:
                yield Fault(name, line_of(repository.text(name), there.start()), f"the version is {there[1]}, and {version} in {HEADER}")
