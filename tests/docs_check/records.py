"""Records: a table that gives a call its record or an exported call the call that it hands over to gives the one that the code has."""

import re
from typing import Iterator

from definitions import EXPORTED
from repository import Fault, Repository

RECORD = re.compile(r"`(\w+(?:Promise|Export))`")


def promised(repository: Repository) -> dict[str, str]:
    """The record that the contract of each public and each exported call names."""
    found = {}
    for call, (file, line, _) in repository.public_calls.items():
        rest = "\n".join(repository.text(file).splitlines()[line:])
        found[call] = first_record(rest)
    for header in repository.headers:
        crate = header.removeprefix("include/").removesuffix(".h")
        text = repository.text(f"crates/{crate}/src/lib.rt")
        for call in repository.exported[header]:
            found[call] = first_record(text.partition(f"fn {call}(")[2])
    return {call: record for call, record in found.items() if record}


def first_record(text: str) -> str:
    match = re.search(r"(?:requires|ensures)(?: \w+)? \{ (\w+)", text)
    return match[1] if match else ""


def faults(repository: Repository) -> Iterator[Fault]:
    records = promised(repository)
    for name in repository.current:
        for line, head, cells in repository.rows(name):
            call = re.fullmatch(r"\[?`([\w:]+)`\]?(?:\([^)]*\))?", cells[0])
            if not call or call[1] not in records:
                continue
            said = RECORD.findall(" ".join(cells[1:]))
            if said and said != [records[call[1]]]:
                yield Fault(name, line, f"{call[1]} promises {records[call[1]]}, and not {' '.join(said)}")
            if head[:2] == ["Export", "Call"] and call[1] in EXPORTED and f"`{EXPORTED[call[1]][0]}`" not in cells[1]:
                yield Fault(name, line, f"{call[1]} hands over to {EXPORTED[call[1]][0]}, and not to {cells[1]}")
