"""Refusal orders: for each call the order of its refusals is the one that its definition has, in the header, in the tables of documents, in the
chapters of docs/RULES.md and in the comments of the code. An order is read off words by the numbers that stand where a list goes on; where a number
comes twice its first place counts."""

import re
from typing import Iterator

from definitions import BY_RECURSION, DEFINED, EXPORTED, READING, Definitions, once
from repository import Fault, Repository, line_of

# What words say for the refusals of a reader and of a build.
SAID = [
    (r"the same numbers without 22", [4, *BY_RECURSION["edition_1_refusal"]]),
    (r"what (?:the reader|a read) refuses|the reader's(?! \d)|the sheet's fault|[Aa] fault of the sheet", READING),
    (r"as a read does", [4, *READING]),
    (r"the build's(?! \d)|what the build refuses", [5, 7, 8, 9, 10]),
]

NUMBER = re.compile(r"(?<![\w.,−-])(\d\d?)(?: to (\d\d?))?(?![\w:/]|,\d{3}|\.\d)")

# Where a list of refusals begins or goes on: behind a mark or behind one of these words. Behind the number before, it goes on too.
GOES_ON = re.compile(r"(?:^|[,;:(] |\) |\b(?:by|[Tt]hen|and|or|order|first of|sheet of|build|query|which is|[Rr]efuses|\w+'s) )$")

# What stands behind these words belongs to each point of a call for many, or says more of a number that was there.
ANOTHER_LIST = re.compile(r"; a point's own|; in refusals, for each point|\bin its slot\b")


def said_in(words: str) -> list[int]:
    """The order that words say."""
    words = " ".join(ANOTHER_LIST.split(words)[0].split())
    for said, numbers in SAID:
        words = re.sub(said, " ".join(["by", *map(str, numbers)]), words)
    found: list[int] = []
    end = -1
    for match in NUMBER.finditer(words):
        if match.start() == end + 1 or GOES_ON.search(words[: match.start()]):
            found += range(int(match[1]), int(match[2] or match[1]) + 1)
            end = match.end()
    return once([number for number in found if 1 <= number <= 23])


def refusing_words(words: str) -> str:
    """The part of a comment that says what is refused."""
    for begin in (r"\bRefuses\b", r"\bIt refuses\b|\brefuses by\b", r"number of its refusal|A refusal is (?:answered|the pattern)"):
        if match := re.search(begin, words):
            return re.split(r"\. (?=[A-Z])", words[match.start() :])[0]
    return ""


def header_order(comment: str) -> list[int]:
    """The order in a call's comment in the header."""
    match = re.search(r"\bRefuses\b:?(.*?)(?=\n[A-Z]\w+: |\n\s*\n|\. [A-Z0-9]|\Z)", comment, re.S)
    return said_in(match[1].strip()) if match else []


# ---- the places


def shown(numbers: list[int]) -> str:
    return " ".join(map(str, numbers)) or "nothing"


def compared(file: str, line: int, name: str, said: list[int], defined: list[int]) -> Iterator[Fault]:
    if said != defined:
        yield Fault(file, line, f"{name} refuses {shown(defined)} by its definition, and not {shown(said)}")


def faults(repository: Repository) -> Iterator[Fault]:
    definitions = Definitions(repository)
    yield from unknown_calls(repository)
    for call in repository.public_calls.keys() & DEFINED.keys():
        file, line, words = repository.public_calls[call]
        yield from compared(file, line, call, said_in(refusing_words(words)), definitions.of_call(call))
    for export in repository.calls.keys() & EXPORTED.keys():
        declared = repository.calls[export]
        yield from compared("include/hullashlar.h", declared.line, export, header_order(declared.comment), definitions.of_export(export))
    yield from export_faults(repository, definitions)
    for name in repository.current:
        yield from table_faults(repository, definitions, name)
        yield from chapter_faults(repository, definitions, name)


def unknown_calls(repository: Repository) -> Iterator[Fault]:
    """Calls of which this file does not know the definition."""
    for call in repository.public_calls.keys() - DEFINED.keys():
        file, line, _ = repository.public_calls[call]
        yield Fault(file, line, f"{call} has no line in DEFINED of tests/docs_check/definitions.py")
    for export in repository.calls.keys() - EXPORTED.keys():
        yield Fault("include/hullashlar.h", repository.calls[export].line, f"{export} has no line in EXPORTED of tests/docs_check/definitions.py")


def export_faults(repository: Repository, definitions: Definitions) -> Iterator[Fault]:
    """The comments of the exports in the code: the order of the call or of the export, and behind it which numbers are the host's own."""
    file = "crates/hullashlar/src/lib.rt"
    comment = re.compile(r"((?:^// .*\n)+)#\[unsafe\(no_mangle\)\]\npub extern \"C\" fn (\w+)", re.M)
    for match in comment.finditer(repository.text(file)):
        line = line_of(repository.text(file), match.start(2))
        words, export = refusing_words(re.sub(r"\n?// ", " ", match[1])), match[2]
        if export not in EXPORTED or " as the " in words[:16]:
            continue
        call, whole = definitions.of_call(EXPORTED[export][0]), definitions.of_export(export)
        own = re.search(r"[;,]? [Aa]nd ([\d, and]+) of its own", words)
        said = said_in(words[: own.start()] if own else words)
        if said not in (whole, once(definitions.order(EXPORTED[export][1]) + call)):
            yield from compared(file, line, export, said, call)
        if own and {int(number) for number in re.findall(r"\d+", own[1])} != {4} | set(whole) - set(call):
            yield Fault(file, line, f"{export}: the host's own refusals are not {own[1]}")


def table_faults(repository: Repository, definitions: Definitions, name: str) -> Iterator[Fault]:
    """The rows of tables that have a column Refuses; a cell that says the same means the row above."""
    above = ""
    for line, head, cells in repository.rows(name):
        if "Refuses" not in head or len(cells) != len(head):
            continue
        said = cells[head.index("Refuses")]
        above = above if said == "the same" else said
        for call in calls_in(cells[0]):
            if call in DEFINED:
                yield from compared(name, line, call, said_in(above), definitions.of_call(call))
            if call in EXPORTED:
                yield from compared(name, line, call, said_in(above), definitions.of_export(call))


def calls_in(cell: str) -> list[str]:
    """The calls that the first cell of a row names; a cursor's two calls have one row."""
    return [] if "Cursor::start`, " in cell else re.findall(r"`([\w:]+)`", cell)


def chapter_faults(repository: Repository, definitions: Definitions, name: str) -> Iterator[Fault]:
    """The items of a chapter that begin a list of refusals with the name of its definition; one that begins with Then goes on with it."""
    file, begun = "", []
    for line, text in [*repository.prose(name), (0, "")]:
        if begun and text.startswith("- Then "):
            begun[2] += " " + text.removeprefix("- ")
            continue
        if begun:
            yield from compared(name, begun[0], begun[1], said_in(begun[2].strip()), once(definitions.named(file, begun[1])))
            begun = []
        if heading := re.match(r"#+ (\w+)$", text):
            file = next(iter(repository.matching(rf"crates/\w+/specs/{heading[1]}\.antt")), "")
        if match := re.match(r"- Refuses? \(`(\w+_refusal)`[^)]*\)[^:]*:(.*)", text):
            begun = [line, match[1], match[2]]
