"""The repository as the checks see it: its documents and headers line by line, and the names that its code, its definitions, its Makefile and
its headers have."""

import os
import re
from functools import cache, cached_property
from pathlib import Path
from typing import Iterator, NamedTuple

# Folders that hold what is made, and nothing that is written; of those that begin with a point one alone is ours.
MADE = re.compile(r"(?:.*/)?(?:target|__pycache__|venv|[\w.]+\.egg-info|\.(?!ci$)[\w-]+)|python/build|python/hullashlar/proved|crates/\w+/out")

# The notes of what landed, and of the port, keep the names and the figures of their day.
NOTES = ("docs/landings/", "docs/PORT.md")

CODE_WORD = re.compile(r"`([^`]+)`")


class Fault(NamedTuple):
    """One thing that is wrong, and where."""

    file: str
    line: int
    what: str

    def __str__(self) -> str:
        return f"{self.file}:{self.line}: {self.what}"


def line_of(text: str, position: int) -> int:
    return text.count("\n", 0, position) + 1


def cells_of(row: str) -> list[str]:
    """The cells of a row of a table; a bar that is none of the table's is written with a backslash."""
    return [cell.strip() for cell in re.split(r"(?<!\\)\|", row)[1:-1]]


class Call(NamedTuple):
    """A call as a file declares it: its line, its parameters, and for a header the comment before it."""

    line: int
    parameters: list[str]
    comment: str = ""


class Repository:
    """A folder of the project; everything is read once and kept."""

    def __init__(self, root: Path) -> None:
        self.root = root
        self.kept: dict[str, str] = {}
        self.matched: dict[str, list[str]] = {}

    # ---- files

    @cached_property
    def files(self) -> list[str]:
        found = []
        for folder, folders, names in os.walk(self.root):
            here = Path(folder).relative_to(self.root)
            folders[:] = sorted(name for name in folders if not MADE.fullmatch((here / name).as_posix()))
            found += [(here / name).as_posix() for name in sorted(names)]
        return found

    @cached_property
    def paths(self) -> set[str]:
        """Every file and every folder."""
        folders = {parent.as_posix() for name in self.files for parent in Path(name).parents}
        return set(self.files) | folders

    def text(self, name: str) -> str:
        """The text of a file, or none where there is no such file."""
        if name not in self.kept:
            path = self.root / name
            self.kept[name] = path.read_text() if path.is_file() else ""
        return self.kept[name]

    def lines(self, name: str) -> Iterator[tuple[int, str]]:
        return enumerate(self.text(name).splitlines(), 1)

    def matching(self, pattern: str) -> list[str]:
        """The files whose whole name is as the pattern says."""
        if pattern not in self.matched:
            self.matched[pattern] = list(filter(re.compile(pattern).fullmatch, self.files))
        return self.matched[pattern]

    # ---- documents

    @cached_property
    def documents(self) -> list[str]:
        return self.matching(r"[A-Z]+\.md|docs/.*\.md|.*/README\.md")

    @cached_property
    def current(self) -> list[str]:
        """The documents that speak of the project as it is."""
        return [name for name in self.documents if not name.startswith(NOTES)]

    @cached_property
    def headers(self) -> list[str]:
        return self.matching(r"include/\w+\.h")

    @cached_property
    def sources(self) -> list[str]:
        """The code and the definitions, whose comments name things too."""
        return self.matching(r"crates/\w+/(?:src/.*\.rt|specs/.*\.antt)")

    def blocks(self, name: str) -> Iterator[tuple[int, str, bool]]:
        """The lines of a document, and whether each stands in a block of code."""
        fenced, indented, blank = False, False, True
        for number, line in self.lines(name):
            if line.lstrip().startswith("```"):
                fenced = not fenced
                yield number, line, True
                continue
            indented = line.startswith("    ") and (blank or indented)
            blank = not line.strip()
            yield number, line, fenced or indented

    def prose(self, name: str) -> Iterator[tuple[int, str]]:
        return ((number, line) for number, line, code in self.blocks(name) if not code)

    def code_words(self, name: str) -> Iterator[tuple[int, str]]:
        """The words in code style outside blocks of code."""
        return ((number, word) for number, line in self.prose(name) for word in CODE_WORD.findall(line))

    def rows(self, name: str) -> Iterator[tuple[int, list[str], list[str]]]:
        """The rows of a document's tables: the line, the cells of the table's first row, and the row's own."""
        head: list[str] = []
        for number, line in self.prose(name):
            if not line.startswith("|"):
                head = []
                continue
            cells = cells_of(line)
            if not head:
                head = cells
            elif not re.fullmatch(r"[|: -]+", line):
                yield number, head, cells

    def headings(self, name: str) -> Iterator[tuple[int, str]]:
        return ((number, line.lstrip("#").strip()) for number, line in self.prose(name) if re.match(r"#+ ", line))

    def comments(self, name: str) -> Iterator[tuple[int, str]]:
        """The comments of a source, line by line."""
        mark = "--" if name.endswith(".antt") else "//"
        for number, line in self.lines(name):
            if line.lstrip().startswith(mark):
                yield number, line.lstrip()[2:].strip()

    # ---- crates

    @cached_property
    def crates(self) -> dict[str, list[str]]:
        """The crates in their order, each with those that it stands on."""
        lines = [line.split(":") for _, line in self.lines("crates.txt") if ":" in line and not line.startswith("#")]
        return {name.removesuffix(" staticlib"): over.split() for name, over in lines}

    @cached_property
    def items(self) -> dict[str, set[str]]:
        """What the code of each crate declares: functions, types, their cases, constants and modules."""
        declared = re.compile(r"\b(?:fn|struct|enum|const|mod|type|trait) (\w+)|^\s+([A-Z]\w+)(?:\(.*\),|,| \{.*)$", re.M)
        found: dict[str, set[str]] = {crate: set() for crate in self.crates}
        for name in self.matching(r"crates/\w+/src/.*\.rt"):
            crate = name.split("/")[1]
            found.setdefault(crate, set()).add(Path(name).stem)
            found[crate] |= {word for match in declared.findall(self.text(name)) for word in match if word}
        return found

    @cached_property
    def definitions(self) -> set[str]:
        """The names that definitions and proofs declare, and the names of their files."""
        files = self.matching(r"crates/\w+/(?:specs|proofs)/.*\.antt")
        return {Path(name).stem for name in files}.union(*(defined_in(self.text(name)) for name in files))

    @cached_property
    def gate_edits(self) -> dict[str, str]:
        return self.edits_in(r"crates/(\w+)/must-fail/(\w+)\.edit")

    @cached_property
    def further_edits(self) -> dict[str, str]:
        return self.edits_in(r"tests/further_edits/(\w+)/(\w+)\.edit")

    @cached_property
    def deliberate_errors(self) -> dict[str, str]:
        return self.edits_in(r"tests/deliberate_errors/(\w+)/(\w+)\.edit")

    def edits_in(self, pattern: str) -> dict[str, str]:
        matches = [re.fullmatch(pattern, name) for name in self.files]
        return {f"{match[1]}/{match[2]}": match[0] for match in matches if match}

    # ---- the calls for C

    @cached_property
    def exported(self) -> dict[str, dict[str, Call]]:
        """The calls that each header declares."""
        return {name: declared_in_c(self.text(name)) for name in self.headers}

    @cached_property
    def calls(self) -> dict[str, Call]:
        return self.exported["include/hullashlar.h"]

    @cached_property
    def call_names(self) -> set[str]:
        """The calls of the headers, and what else has a name like theirs: enums, functions of a header or of the firmware's C, crates."""
        files = [*self.headers, *self.matching(r"firmware/.*\.c")]
        others = {name for file in files for name in re.findall(r"(?:enum|int) (hullashlar_\w+)", self.text(file))}
        return others.union(self.crates, *self.exported.values())

    @cached_property
    def refusals(self) -> dict[int, str]:
        """The refusals by number, with the header's name in small letters."""
        pairs = re.findall(r"HULLASHLAR_REFUSED_(\w+) = (\d+)", self.text("include/hullashlar.h"))
        return {int(number): name.lower() for name, number in pairs}

    @cached_property
    def public_calls(self) -> dict[str, tuple[str, int, str]]:
        """The calls that are marked PUBLIC: file, line and comment of each."""
        found = {}
        for name in self.matching(r"crates/\w+/src/.*\.rt"):
            for line, words, function, type_name in public_in(self.text(name)):
                found["::".join(part for part in (name.split("/")[1], type_name, function) if part)] = (name, line, words)
        return found

    # ---- the rest

    @cached_property
    def chapters(self) -> set[str]:
        return {heading for _, heading in self.headings("docs/RULES.md")}

    @cached_property
    def targets(self) -> set[str]:
        rules = [self.text(name) for name in self.matching(r"Makefile|(?:.*/)?\w+\.mk")]
        return {target for text in rules for target in re.findall(r"^([a-z][a-z-]*):(?!=)", text, re.M)}

    @cached_property
    def constants(self) -> set[str]:
        """Constants and variables that are set in a header, the code, a script or the Makefile, or asked for there by their names."""
        names = self.matching(r"Makefile|(?:include|oracle|rust|firmware|tests|python|crates/\w+/src)/.*\.(?:h|rs|py|rt)")
        return set().union(*(constants_in(self.text(name)) for name in names))

    @cached_property
    def words(self) -> set[str]:
        """Every word of the code that is no proof: of crates, headers, scripts, hosts, the oracle and the Makefile."""
        kinds = r"Makefile|(?!tests/docs_check/).*\.(?:rt|h|rs|py|c|toml)"
        return set().union(*(words_in(self.text(name)) for name in self.matching(kinds)))


DEFINED = re.compile(
    r"^\s*(?:pub |abbrev |unfoldable |instance |record |data |let )*([^\s:(){}=]+)(?= [^=\n]*:|(?: [^=\n]*)? =)|\blet (\S+) =", re.M
)


@cache
def defined_in(text: str) -> frozenset[str]:
    """The names that a file of definitions or proofs declares, with those that a `let` gives."""
    return frozenset(word for match in DEFINED.findall(text) for word in match if word)


SET = re.compile(r'#(?:define|ifndef) (\w+)|\b([A-Z][A-Z0-9_]+) ?[:?]?=(?!=)|\bconst ([A-Z]\w+)|"([A-Z][A-Z0-9_]+)"')


@cache
def constants_in(text: str) -> frozenset[str]:
    return frozenset(word for match in SET.findall(text) for word in match if word)


@cache
def words_in(text: str) -> frozenset[str]:
    return frozenset(re.findall(r"\w+", text))


def declared_in_c(text: str) -> dict[str, Call]:
    """The calls that the text of a header declares; the comment is the last one before each."""
    found = {}
    for match in re.finditer(r"^\w+ (hullashlar_\w+)\(([^)]*)\);", text, re.M):
        begin = text.rfind("/*", 0, match.start())
        comment, _, between = text[begin : match.start()].partition("*/")
        own = "" if between.strip() else re.sub(r"\n \* ?", "\n", comment[2:])
        parameters = [re.search(r"(\w+)$", part.strip())[1] for part in match[2].split(",")]
        found[match[1]] = Call(line_of(text, match.start()), parameters, own)
    return found


def public_in(text: str) -> Iterator[tuple[int, str, str, str]]:
    """Of each call marked PUBLIC the line and the words of its comment, its name and the type that it belongs to."""
    lines, owner = text.splitlines(), ""
    for index, line in enumerate(lines):
        if match := re.match(r"impl (\w+)", line):
            owner = match[1]
        if line.startswith("}"):
            owner = ""
        if "// PUBLIC." not in line:
            continue
        end = next(i for i in range(index, len(lines)) if not lines[i].lstrip().startswith("//"))
        words = " ".join(part.lstrip().removeprefix("//").strip() for part in lines[index:end])
        function = re.search(r"fn (\w+)", lines[end])[1]
        yield index + 1, words, function, owner
