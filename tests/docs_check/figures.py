"""Figures that stand twice: a figure that the repository has itself is counted, and every sentence that says it is held to the count; a figure that
was measured is held to its other places. History keeps the figures of its day."""

from __future__ import annotations

import re
from functools import cache
from typing import Callable, Iterator

from repository import Fault, Repository, line_of

HISTORY = {"docs/DECISIONS.md", "CHANGELOG.md"}
SMALL = "one two three four five six seven eight nine ten eleven twelve thirteen fourteen fifteen sixteen seventeen eighteen nineteen".split()
TENS = "twenty thirty forty fifty sixty seventy eighty ninety".split()

# In the patterns below # is a figure, in digits or in words, and a space is any space, also that between two lines of a comment.
FIGURE = rf"(\d+(?:,\d{{3}})*|(?:{'|'.join(TENS)})(?:-(?:{'|'.join(SMALL[:9])}))?|{'|'.join(SMALL)})\b"
SPACE = r"[\s*/#]+"


@cache
def pattern(sentence: str) -> re.Pattern:
    return re.compile(sentence.replace("#", FIGURE).replace(" ", SPACE))


def number(figure: str) -> int:
    """The figure that digits or words say."""
    if figure[0].isdigit():
        return int(figure.replace(",", ""))
    tens, _, ones = figure.partition("-")
    if tens in TENS:
        return 10 * TENS.index(tens) + 20 + (SMALL.index(ones) + 1 if ones else 0)
    return SMALL.index(tens) + 1


# ---- what is counted


def exported(repository: Repository) -> set[int]:
    return {len(repository.calls)}


def of_doubles(repository: Repository) -> set[int]:
    return {len(repository.exported["include/hullashlar_doubles.h"])}


def crates(repository: Repository) -> set[int]:
    return {len(repository.crates)}


def gate_edits(repository: Repository) -> set[int]:
    return {len(repository.gate_edits)}


def further_edits(repository: Repository) -> set[int]:
    return {len(repository.further_edits)}


def some_edits(repository: Repository) -> set[int]:
    """Those of the gate, the further ones, or both."""
    gate, further = len(repository.gate_edits), len(repository.further_edits)
    return {gate, further, gate + further}


def passed(repository: Repository) -> set[int]:
    """What the gate counts: crates and edits."""
    return {len(repository.crates) + len(repository.gate_edits)}


def errors(repository: Repository) -> set[int]:
    return {len(repository.deliberate_errors)}


def refusals(repository: Repository) -> set[int]:
    return {max(repository.refusals)}


def replayed(repository: Repository) -> set[int]:
    """The last line of what the replay prints has its cases."""
    last = repository.text("crates/trial_replay/stdout").splitlines()[-1]
    return {int(last.split()[0])}


def traced(repository: Repository) -> set[int]:
    """The rows of docs/TRACE.md."""
    return {len(re.findall(r"^\| T\d+", repository.text("docs/TRACE.md"), re.M))} if "docs/TRACE.md" in repository.files else set()


def constant(repository: Repository, name: str) -> int | None:
    """The number that a definition is, of numbers and of other such definitions by sums and products; None where it is another thing."""
    for file in repository.matching(r"crates/\w+/specs/\w+\.antt"):
        match = re.search(rf"^{re.escape(name)} = ([\w +*()-]+)$", repository.text(file), re.M)
        if match:
            said = re.sub(r"[a-z]\w*", lambda word: str(constant(repository, word[0])), match[1])
            return eval(said) if re.fullmatch(r"[\d +*()]+", said) else None
    return None


def defined(name: str) -> Callable[[Repository], set[int]]:
    """A figure that a definition is."""
    return lambda repository: {constant(repository, name)} - {None}


def variable(name: str) -> Callable[[Repository], set[int]]:
    """A figure that the Makefile sets."""
    return lambda repository: set(map(int, re.findall(rf"^{name} = (\d+)$", repository.text("Makefile"), re.M)))


def half_of(name: str) -> Callable[[Repository], set[int]]:
    return lambda repository: {figure // 2 for figure in variable(name)(repository)}


def option(target: str, name: str) -> Callable[[Repository], set[int]]:
    """A figure that a target of the Makefile hands to a program."""
    rule = rf"^{target}:.*\n(?:\t.*\n)*?\t.*--{name} (\d+)"
    return lambda repository: set(map(int, re.findall(rule, repository.text("Makefile"), re.M)))


def size(name: str) -> Callable[[Repository], set[int]]:
    """A size that the header has."""
    return lambda repository: set(map(int, re.findall(rf"HULLASHLAR_{name} = (\d+)", repository.text("include/hullashlar.h"))))


def in_bytes(*sizes: str) -> Callable[[Repository], set[int]]:
    """The bytes of so many doubles together."""
    return lambda repository: {8 * sum(next(iter(size(name)(repository))) for name in sizes)}


def stack_of(calls: str) -> Callable[[Repository], set[int]]:
    """The deepest stack among calls, by the table of docs/BENCH.md whose second column has the bytes of stack at most."""

    def deepest(repository: Repository) -> set[int]:
        rows = [(cells[0].strip("`"), cells[1]) for _, head, cells in repository.rows("docs/BENCH.md") if head[1:] and head[1].startswith("Stack bytes")]
        return {max(number(depth) for call, depth in rows if re.fullmatch(calls, call))} if rows else set()

    return deepest


# What is said, and how it is counted.
COUNTED: list[tuple[str, str, Callable[[Repository], set[int]]]] = [
    ("exported calls", r"\b# (?:exported )?calls over numbers", exported),
    ("exported calls", r"\b# calls for C\b", exported),
    ("exported calls", r"\b[Aa]ll # exports\b", exported),
    ("exported calls", r"\b(?:header's|the|all|its) # exported calls\b", exported),
    ("exported calls", r"\bheader's # calls\b", exported),
    ("calls of double arithmetic", r"hullashlar_doubles\.h declares its # calls", of_doubles),
    ("calls of double arithmetic", r"\bthe # calls of (?:lib|double)", of_doubles),
    ("crates", r"\b(\d{2,}) crates\b", crates),
    ("must-fail edits", r"\b(\d{2,}) (?:must-fail )?edits\b", some_edits),
    ("edits of the gate", r"\b# must-fail edits that the gate", gate_edits),
    ("further edits", r"\b# (?:further edits|that `make further-edits`)", further_edits),
    ("crates and edits of the gate", r"\b# passed, 0 failed", passed),
    ("deliberate errors", r"\b# deliberate errors", errors),
    ("refusals", r"\b(?:all|the) # refusals\b", refusals),
    ("refusals", r"\bnumber from 1 to #", refusals),
    ("refusals", r"\beach K from 1 to #", refusals),
    ("refusals", r"\bamong 0 to #", refusals),
    ("cases that are replayed", r"`trial_replay` \| # calls", replayed),
    ("cases that are replayed", r"\breplay program runs on each, all # cases", replayed),
    ("calls on each processor", r"\bOn each target # calls", variable("FIRMWARE_CALLS")),
    ("pairs of doubles on each processor", r"those of x86-64 on # pairs", half_of("FIRMWARE_CALLS")),
    ("seconds of a soak", r"`SOAK` seconds \(#\)", variable("SOAK")),
    ("seconds of the fuzzer", r"`FUZZ` seconds \(#\)", variable("FUZZ")),
    ("bytes of the longest sheet", r"\b# bytes?,? (?:which )?(?:are enough for|hold) every sheet", size("SHEET")),
    ("bytes of the longest sheet", r"\b[Nn]o (?:accepted )?sheet has more than #", size("SHEET")),
    ("bytes of a tensor", r"\btensor #(?: bytes)?, scratch \d", in_bytes("TENSOR")),
    ("bytes of scratch", r"\bscratch #, the two buffers", in_bytes("MOST_SCRATCH")),
    ("bytes of two buffers", r"\btwo buffers of a sheet #", in_bytes("BUFFER", "BUFFER")),
    ("bytes together", r"\blargest grid takes # bytes|\btogether # ?\.", in_bytes("TENSOR", "MOST_SCRATCH", "BUFFER", "BUFFER")),
    ("bytes of the text of a sheet", r"\b# bytes (?:that `sheet_text` asks|are enough for the text of any sheet)", defined("text_length")),
    ("bytes of the text of a curve", r"\b# bytes (?:that `device_text` asks|that it lends are enough for any curve)", defined("device_text_length")),
    ("bytes of the text of a report", r"\b# bytes that `report_text` asks", defined("report_length")),
    ("cases under memcheck", r"`make memcheck` makes # cases", option("memcheck", "cases")),
    ("cases under each float setting", r"`make float-settings` makes # cases", option("float-settings", "settings")),
    ("rows of docs/TRACE.md", r"\bThen # rows", traced),
    ("bytes of stack of hullashlar_surface", r"\b(?:Stack:|takes) # bytes(?: of stack)? on x86-64", stack_of("hullashlar_surface")),
    ("bytes of stack of the other calls", r"\b(?:more than|at most) # bytes of stack", stack_of(r"hullashlar_(?!surface)\w+")),
]

# What was measured and stands in several places.
SAME: list[tuple[str, str]] = [
    ("calls that make differential makes", r"`make differential`(?: \w+){1,6} (\d+(?:,\d{3}){2,})"),
    ("calls that make differential makes", r"(\d+(?:,\d{3}){2,}) calls(?: \w+){1,4} beside the Rust"),
    ("calls of the device among them", r"(\d+(?:,\d{3}){2,}) of them of the device"),
    ("pairs of doubles", r"(\d+(?:,\d{3}){2,}) pairs\b"),
    ("pairs of doubles that were seen on a target", r"(?<![\d,])(\d{3},\d{3}) (?:directed pairs|pairs a target)\b"),
    ("bytes of the buffers of hullashlar_surface", r"(\d\d,\d{3}) (?:of them|bytes) are (?:its )?buffers"),
]

# A figure with the definition that it is in brackets behind it.
BESIDE = re.compile(r"(?<![\d,.^−-])(?<! to )(\d+(?:,\d{3})*)(?: [a-z]+)? \(`([a-z][a-z_]+)`[;,)]")


def places(repository: Repository) -> list[str]:
    scripts = r"Makefile|include/.*|crates/hullashlar/src/lib\.rt|(?:tests(?!/docs_check)|python|firmware|examples|rust|man)/.*\.(?:py|c|h|rs|[13])"
    return [name for name in [*repository.current, *repository.matching(scripts)] if name not in HISTORY]


@cache
def said_in(text: str, sentence: re.Pattern) -> list[tuple[int, str]]:
    """The lines on which a text says a sentence, and the figure there."""
    found = []
    for match in sentence.finditer(text):
        group = next(index for index in range(1, len(match.groups()) + 1) if match[index])
        found.append((line_of(text, match.start(group)), match[group]))
    return found


def faults(repository: Repository) -> Iterator[Fault]:
    for what, sentence, count in COUNTED:
        counted = count(repository)
        for name in places(repository):
            for line, figure in said_in(repository.text(name), pattern(sentence)):
                if number(figure) not in counted:
                    shown = " or ".join(f"{known:,}" for known in sorted(counted)) or "none that tests/docs_check/figures.py can count"
                    yield Fault(name, line, f"{figure} is said of {what}, of which there are {shown}")
    yield from same_faults(repository)
    for name in repository.current:
        for line, text in repository.prose(name):
            for figure, definition in BESIDE.findall(text):
                meant = constant(repository, definition)
                if meant is not None and meant != number(figure):
                    yield Fault(name, line, f"{figure} stands beside {definition}, which is {meant:,}")


def same_faults(repository: Repository) -> Iterator[Fault]:
    first: dict[str, tuple[str, str, int]] = {}
    for what, sentence in SAME:
        for name in places(repository):
            for line, figure in said_in(repository.text(name), pattern(sentence)):
                before = first.setdefault(what, (figure, name, line))
                if before[0] != figure:
                    yield Fault(name, line, f"{figure} is said of {what}, and {before[0]} in {before[1]}:{before[2]}")
