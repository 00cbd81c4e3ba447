"""Everything is named: every public call in the table of public calls, every exported call in the header's words and in each table of exported calls,
every edit in a document, every crate in the table of crates, with the crates that it stands on."""

import re
from typing import Iterator

from repository import Fault, Repository

RULES = "docs/RULES.md"
CRATE_TABLE = ["Crate", "What it has", "Over"]

# What the first column of a table of calls is called.
OF_CALLS = {"Call", "Export", "Exported call"}


def faults(repository: Repository) -> Iterator[Fault]:
    yield from table_faults(repository, set(repository.public_calls), "public calls")
    for header, calls in repository.exported.items():
        yield from table_faults(repository, set(calls), f"calls of {header}")
        for name, call in calls.items():
            if header == "include/hullashlar.h" and not call.comment.strip():
                yield Fault(header, call.line, f"{name} has no comment")
    yield from chapter_faults(repository)
    yield from edit_faults(repository)
    yield from crate_faults(repository)


def first_cells(repository: Repository, name: str) -> Iterator[tuple[int, set[str]]]:
    """Of each table of calls in a document the line of its first row, and the names in code style in the first cells of its rows."""
    begin, last, found = 0, 0, set()
    for line, head, cells in repository.rows(name):
        if head[0] not in OF_CALLS or "Wrong answer" in head:
            continue
        if line != last + 1:
            if found:
                yield begin, found
            begin, found = line, set()
        last = line
        found |= spelt_out(re.findall(r"`([^`]+)`", cells[0]))
    if found:
        yield begin, found


def spelt_out(names: list[str]) -> set[str]:
    """A name that leaves out what the one before it begins with has that too: `Cursor::start`, `next`, and `hullashlar_soft_lt`, `_gt`."""
    found, before = set(), ""
    for name in names:
        if name.startswith("_"):
            name = before.rpartition("_")[0] + name
        elif "::" not in name and "::" in before:
            name = before.rpartition("::")[0] + "::" + name
        found.add(name)
        before = name
    return found


def table_faults(repository: Repository, calls: set[str], what: str) -> Iterator[Fault]:
    """A table that has more than half of the calls has all of them, and there is one."""
    complete = False
    for name in repository.current:
        for line, found in first_cells(repository, name):
            if 2 * len(found & calls) > len(calls):
                for missing in sorted(calls - found):
                    yield Fault(name, line, f"the table of {what} lacks {missing}")
                complete = True
    if not complete:
        yield Fault(RULES, 1, f"no document has a table of the {what}")


def chapter_faults(repository: Repository) -> Iterator[Fault]:
    """Every exported call is named in docs/RULES.md, and those of the library in its man page."""
    words = {word for _, word in repository.code_words(RULES)}
    for header, calls in repository.exported.items():
        for name, call in calls.items():
            if name not in words:
                yield Fault(header, call.line, f"{name} is not named in {RULES}")
    for page in repository.matching(r"man/hullashlar\.3"):
        for name in repository.calls:
            if not re.search(rf"\b{name}\b", repository.text(page)):
                yield Fault(page, 1, f"{name} is not named")


def edit_faults(repository: Repository) -> Iterator[Fault]:
    words = {word for name in repository.current for _, word in repository.code_words(name)}
    for edit, file in {**repository.gate_edits, **repository.further_edits}.items():
        if edit not in words:
            yield Fault(file, 1, f"no document names the edit {edit}")


def crate_faults(repository: Repository) -> Iterator[Fault]:
    """A table of crates has all of them, each over those that crates.txt has; and there is one."""
    tables = {name: crate_rows(repository, name) for name in repository.current}
    if not any(tables.values()):
        yield Fault("crates.txt", 1, "no document has a table of the crates")
    for name, found in tables.items():
        for crate, over in repository.crates.items() if found else ():
            stands_on = list(over)
            if crate not in found:
                yield Fault(name, min(line for line, _ in found.values()), f"the table of crates lacks {crate}")
            elif found[crate][1] != stands_on:
                line, said = found[crate]
                yield Fault(name, line, f"{crate} stands over {' '.join(stands_on) or 'nothing'}, and not {' '.join(said) or 'nothing'}")
        for crate in found.keys() - repository.crates.keys():
            yield Fault(name, found[crate][0], f"{crate} is no crate")


def crate_rows(repository: Repository, name: str) -> dict[str, tuple[int, list[str]]]:
    """The crates in the table of a document, each with its line and those that it is said to stand over."""
    found = {}
    for line, head, cells in repository.rows(name):
        if head == CRATE_TABLE and (match := re.fullmatch(r"\[?`(\w+)`.*", cells[0])):
            found[match[1]] = (line, re.findall(r"\w+", cells[2]))
    return found
