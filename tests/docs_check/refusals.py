"""Names of refusals: a number and a name that stand together belong together, and in running text no refusal is named by its number alone."""

import re
from typing import Iterator

from repository import Fault, Repository

# 7 (number); in an order of the header 7 number.
WITH_NAME = re.compile(r"(?<![\w.,])(\d\d?) \((\w+)\)")
IN_AN_ORDER = re.compile(r"(?<![\w.,-])(\d\d?) ([a-z]+)\b")

# A phrase that names a refusal by a number; a range from one number to another needs no names.
PHRASE = re.compile(r"\b(?:refus(?:ed|es|e) by|refusals?) (\d\d?(?: \(\w+\))?(?:(?:, | and | or | nor )\d\d?(?: \(\w+\))?)*)(?! to \d)", re.I)


def named_faults(repository: Repository, file: str, line: int, pairs: list[tuple[str, str]]) -> Iterator[Fault]:
    names = set(repository.refusals.values())
    for number, name in pairs:
        if name in names and repository.refusals.get(int(number)) != name:
            yield Fault(file, line, f"refusal {number} is {repository.refusals.get(int(number), 'none')}, and not {name}")


def faults(repository: Repository) -> Iterator[Fault]:
    for file in [*repository.documents, *repository.headers]:
        for line, text in repository.lines(file):
            yield from named_faults(repository, file, line, WITH_NAME.findall(text))
    for file in repository.headers:
        yield from order_faults(repository, file)
        for line, text in repository.lines(file):
            yield from nameless_faults(repository, file, line, text)
    for file in repository.current:
        yield from table_faults(repository, file)
        for line, text in repository.prose(file):
            if not text.startswith("|"):
                yield from nameless_faults(repository, file, line, text)


def order_faults(repository: Repository, file: str) -> Iterator[Fault]:
    """The lines that begin with Refuses: have the name behind each number."""
    for call, declared in repository.exported[file].items():
        if match := re.search(r"^Refuses: (.*?)(?=\n[A-Z]\w+: |\. |\Z)", declared.comment, re.S | re.M):
            words = re.sub(r"\([^)]*\)", "", " ".join(match[1].split()))
            for fault in named_faults(repository, file, declared.line, IN_AN_ORDER.findall(words)):
                yield fault._replace(what=f"{call}: {fault.what}")


def table_faults(repository: Repository, file: str) -> Iterator[Fault]:
    """A row that begins with a number and a name, in a table of refusals."""
    for line, head, cells in repository.rows(file):
        if head[0] in ("No", "Number", "Refusal") and len(cells) > 1 and cells[0].isdigit():
            yield from named_faults(repository, file, line, [(cells[0], cells[1].strip("`"))])


def nameless_faults(repository: Repository, file: str, line: int, text: str) -> Iterator[Fault]:
    plain = re.sub(r"`[^`]*`", "", text)
    for phrase in PHRASE.findall(plain):
        for number in re.findall(r"(?<!\d)(\d\d?)(?! \(|\d)", phrase):
            if name := repository.refusals.get(int(number)):
                yield Fault(file, line, f"refusal {number} stands without its name: {number} ({name})")
