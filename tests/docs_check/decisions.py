"""Decisions: no number comes twice in docs/DECISIONS.md, and every reference to one leads to one."""

import re
from typing import Iterator

from repository import Fault, Repository

PAGE = "docs/DECISIONS.md"

# An entry begins a row of a table, or has its number in bold at the head of a line, of a row or of an item.
ENTRY = re.compile(r"^\| (\d+) \||^(?:[-*] |\| |#+ )?\*\*(\d+)[.:]?\*\*")

# References from elsewhere; in the page itself a number alone in brackets or in a cell, or what replaced an entry.
FROM_ELSEWHERE = re.compile(r"DECISIONS(?:\.md)?(?:\)|`|,|:)? (\d+(?:(?:, | and )\d+)*)\b(?! \w+s\b)|DECISIONS(?:\.md)?[^.|]{0,40}?\((\d+)\)")
IN_BRACKETS = re.compile(r"DECISIONS.* number in brackets")
ALONE = re.compile(r"\((\d+(?:, \d+)*)\)")
IN_THE_PAGE = re.compile(r"\((\d+(?:(?:, | and )\d+)*)\)|replaced by (\d+(?:(?:, | and )\d+)*)|\| (\d+) \|$")


def numbers(matches: list) -> list[int]:
    """The numbers in what a pattern found, which may have several groups."""
    texts = [text for match in matches for text in (match if isinstance(match, tuple) else (match,))]
    return [int(number) for text in texts for number in re.findall(r"\d+", text)]


def entries(repository: Repository) -> dict[int, list[int]]:
    """The lines on which each number begins an entry."""
    found: dict[int, list[int]] = {}
    for line, text in repository.prose(PAGE):
        if match := ENTRY.match(text):
            found.setdefault(int(match[1] or match[2]), []).append(line)
    return found


def faults(repository: Repository) -> Iterator[Fault]:
    known = entries(repository)
    for number, lines in known.items():
        for line in lines[1:]:
            yield Fault(PAGE, line, f"decision {number} stands on line {lines[0]} too")
    for line, text in repository.prose(PAGE):
        for number in numbers(IN_THE_PAGE.findall(re.sub(r"`[^`]*`", "", text))):
            if number not in known:
                yield Fault(PAGE, line, f"there is no decision {number}")
    for name in [*repository.documents, *repository.headers, *repository.sources, "Makefile"]:
        for line, number in referred(repository, name) if name != PAGE and "DECISIONS" in repository.text(name) else ():
            if number not in known:
                yield Fault(name, line, f"there is no decision {number}")


def referred(repository: Repository, name: str) -> Iterator[tuple[int, int]]:
    """The decisions that a file refers to, with their lines; a section may say that each number in brackets is one."""
    each = False
    for line, text in repository.lines(name):
        each = bool(IN_BRACKETS.search(text)) or each and not text.startswith("#")
        for number in numbers(FROM_ELSEWHERE.findall(text) + (ALONE.findall(text) if each else [])):
            yield line, number
