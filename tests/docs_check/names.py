"""Names: what a document, a header or a comment names exists. A word in code style belongs to a class by its form, and each class has the place
where its names stand; a word of no class is a fault, unless it is free text by its form or allowed.txt has it with a reason."""

from __future__ import annotations

import re
from functools import cache
from itertools import zip_longest
from pathlib import Path
from typing import Callable, Iterator

from repository import CODE_WORD, MADE, Fault, Repository, cells_of, line_of

ALLOWED = Path(__file__).resolve().parent / "allowed.txt"

# Free text by its form: a piece of code, a command, an option, a number, a word with an operator in it.
FREE = re.compile(r".*[\s\"'=<>(){}\[\]+*,;&|λ≡→…$%^!?@#].*|[-.]\S*|[0-9].*|/\S*|__\w+|\S*[.:]")

# What is said of a path or a crate in general: NAME, TARGET and the like stand for one part of it.
PLACEHOLDER = re.compile(r"(?<![A-Za-z])[A-Z]{4,}(?![A-Za-z.])|CHAPTER(?=\.antt)")
SUFFIX = re.compile(r".*\.(?:antt|rt|md|py|c|h|rs|txt|sheet|edit|sha256|svg|png|toml|ld|mk|map|cmake|pc)")

# What an installation has.
INSTALLED = re.compile(r"(?:bin|lib|share)/")

# Paths in running text, and the names of calls there.
PLAIN_PATH = re.compile(r"(?<![\w/.<-])((?:docs|tests|crates|include|examples|python|oracle|firmware|man|rust|\.ci)/[\w./-]*\w)")
PLAIN_CALL = re.compile(r"(?<![\w/.])(hullashlar_[a-z0-9_]*[a-z0-9])(?![\w.])")
PLAIN_CONSTANT = re.compile(r"\b(HULLASHLAR_[A-Z0-9_]*[A-Z0-9])\b")
MAKE = re.compile(r"\bmake ([a-z][a-z-]*)")
CHAPTERS = re.compile(r"\bchapters? ((?:[A-Z]\w+(?:,[\s*/-]+|[\s*/-]+and[\s*/-]+)?)+)")

# What else has words about the project: headers, scripts, hosts, the oracle, man pages, the Makefile.
WRITTEN = r"(?!tests/docs_check/)(?:include|examples|man|firmware|python|rust|oracle|tests)/.*\.(?:h|rs|c|py|toml|[13])|Makefile|\.ci/run"

# A table of what crates were called before has names that are no more.
OLD_NAMES = re.compile(r"names of crates", re.I)


@cache
def allowed() -> set[str]:
    """The words of allowed.txt: each stands before a colon, and behind it the reason."""
    lines = [line.partition(": ") for line in ALLOWED.read_text().splitlines() if line and not line.startswith("#")]
    return {word for word, _, reason in lines if reason}


def path_exists(repository: Repository, path: str) -> bool:
    """Whether a path leads to a file or a folder, from the root or as the end of a longer path."""
    path = path.rstrip("/")
    if any(MADE.fullmatch(folder.as_posix()) for folder in [Path(path), *Path(path).parents]):
        return True
    if path in repository.paths:
        return True
    if INSTALLED.match(path):
        return is_installed(repository, path)
    general = PLACEHOLDER.sub(r"[^/]+", re.escape(path))
    return any(re.search(rf"(?:^|/){general}(?:\.in)?(?:$|/)", name) for name in repository.files)


def is_installed(repository: Repository, path: str) -> bool:
    """Whether a path under the folder of an installation is of a program, a library of a crate, or has a last part that the scripts there know."""
    name = path.split("/")[-1]
    scripts = "\n".join(repository.text(file) for file in repository.matching(r"install/.*\.(?:mk|py)"))
    library = re.fullmatch(r"lib(\w+)\.(?:a|so)(?:\.[\d.]+)?", name)
    return name in repository.crates or bool(library and library[1] in repository.crates) or name in scripts or path_exists(repository, name)


def edit_exists(repository: Repository, word: str) -> bool:
    return any(word in edits for edits in (repository.gate_edits, repository.further_edits, repository.deliberate_errors))


def path_or_edit(repository: Repository, word: str) -> bool:
    return edit_exists(repository, word) or path_exists(repository, word)


def item_exists(repository: Repository, word: str) -> bool:
    """crate::item, crate::module::item, crate::Type::item or Type::item."""
    first, *inner = word.split("::")
    if first in repository.crates:
        return all(part in repository.items[first] for part in inner)
    return any({first, *inner} <= items for items in repository.items.values())


def call_exists(repository: Repository, word: str) -> bool:
    return word in repository.call_names


def constant_exists(repository: Repository, word: str) -> bool:
    return word in repository.constants


def definition_exists(repository: Repository, word: str) -> bool:
    return word in repository.definitions


def name_exists(repository: Repository, word: str) -> bool:
    """A name of several parts: of a definition, a theorem or the code; a make target, a processor that archives are made for, or a folder has one too."""
    processors = re.findall(r'"([a-z0-9-]+)"', repository.text("firmware/make_archives.py"))
    known = word in repository.targets or word in processors or path_exists(repository, word)
    return known or definition_exists(repository, word) or word_exists(repository, word)


def place_exists(repository: Repository, word: str) -> bool:
    """What is known at a place of a proof, as an answer says it."""
    return any(word in repository.text(name) for name in repository.matching(r"crates/\w+/proofs/.*/Answers\.antt"))


def type_exists(repository: Repository, word: str) -> bool:
    return word in repository.definitions or any(word in items for items in repository.items.values()) or word in classes(repository)


def classes(repository: Repository) -> set[str]:
    """The types of the Python package and of the Rust side."""
    names = repository.matching(r"(?:python|rust|oracle|examples)/.*\.(?:py|rs)")
    return {word for name in names for word in re.findall(r"\b(?:class|struct|enum|trait|type) (\w+)", repository.text(name))}


def word_exists(repository: Repository, word: str) -> bool:
    edits = {edit.split("/")[1] for edits in (repository.gate_edits, repository.further_edits) for edit in edits}
    if PLACEHOLDER.search(word):
        return any(re.fullmatch(PLACEHOLDER.sub(r"\\w+", word), crate) for crate in repository.crates)
    return word in repository.words or word in repository.definitions or word in repository.crates or word in edits


def archive_exists(repository: Repository, word: str) -> bool:
    return re.fullmatch(r"lib(\w+)\.\w+", word)[1] in repository.crates


def parts_exist(repository: Repository, word: str) -> bool:
    return all(part in repository.words for part in word.split("."))


def begins_a_crate(repository: Repository, word: str) -> bool:
    return any(crate.startswith(word) for crate in repository.crates)


def begins_a_constant(repository: Repository, word: str) -> bool:
    return any(re.search(rf"\b{word}[A-Z]", repository.text(name)) for name in repository.headers)


def ends_a_call(repository: Repository, word: str) -> bool:
    return any(call.endswith(word) for calls in repository.exported.values() for call in calls)


# The classes: the form of a word, where such names stand, and what is said where there is none.
Known = Callable[[Repository, str], bool]
CLASSES: list[tuple[str, Known, str]] = [
    (r"hullashlar_\w+", call_exists, "no call of a header"),
    (r"[A-Z][A-Z0-9_]+_", begins_a_constant, "no beginning of a constant of a header"),
    (r"[A-Z][A-Z0-9_]+", constant_exists, "no constant of a header, the code or the Makefile"),
    (r"lib\w+\.(?:a|so)", archive_exists, "no archive of a crate"),
    (r".*/.*", path_or_edit, "no file and no edit"),
    (SUFFIX.pattern, path_exists, "no file"),
    (r".*::.*", item_exists, "no item of the code"),
    (r"c\.[\w.-]+", place_exists, "said in no proof"),
    (r"[^\W\d_][\w']*(?:[-_][\w']+)+|◌\W◌|\W", name_exists, "no definition, no theorem and no name of the code"),
    (r"[A-Z]\w*", type_exists, "no record and no type"),
    (r"\w+(?:\.\w+)+", parts_exist, "no name of the code"),
    (r"[a-z]+_", begins_a_crate, "no beginning of a crate's name"),
    (r"_\w+", ends_a_call, "no end of a call's name"),
    (r"\w+", word_exists, "no name of the code"),
]


# What is looked for in running text, and where it stands.
PLAIN: list[tuple[re.Pattern, Known, str]] = [
    (PLAIN_PATH, path_or_edit, "no file"),
    (PLAIN_CALL, call_exists, "no call of a header"),
    (PLAIN_CONSTANT, constant_exists, "no constant"),
]


def formula_fault(repository: Repository, text: str) -> str | None:
    """What is wrong with a formula of definitions: a name in it, of several parts, that none of them has."""
    names = re.findall(r"(?<![\w.-])(?:[a-z]+(?:_[a-z]+)+|(?:[A-Z][a-z]+){2,})(?![\w-])", text) if re.search("[≡→]", text) else []
    unknown = [name for name in names if not definition_exists(repository, name)]
    return f"`{unknown[0]}` is no definition" if unknown else None


def fault_of(repository: Repository, word: str) -> str | None:
    """What is wrong with a word in code style, or None."""
    if FREE.fullmatch(word):
        return formula_fault(repository, word)
    for form, exists, missing in CLASSES:
        if re.fullmatch(form, word):
            return None if exists(repository, word) else f"`{word}` is {missing}"
    return f"`{word}` is of no class of names, and allowed.txt does not have it"


def faults(repository: Repository) -> Iterator[Fault]:
    known: dict[str, str | None] = {word: None for word in allowed()}
    for name, line, text in styled(repository):
        for word in CODE_WORD.findall(text):
            if word not in known:
                known[word] = fault_of(repository, word)
            if known[word]:
                yield Fault(name, line, str(known[word]))
    for name in [*repository.current, *repository.sources, *repository.matching(WRITTEN)]:
        yield from plain_faults(repository, name)
    for name in repository.current:
        for line, text, code in repository.blocks(name):
            yield from target_faults(repository, name, line, text if code else " ".join(CODE_WORD.findall(text)))


def styled(repository: Repository) -> Iterator[tuple[str, int, str]]:
    """The lines that may have words in code style: of documents, of the headers and of comments."""
    for name in repository.current:
        section, head = "", []
        for line, text in repository.prose(name):
            section = text if text.startswith("#") else section
            head = head or cells_of(text) if text.startswith("|") else []
            if not OLD_NAMES.search(section):
                yield name, line, without_theirs(head, text) if head else text
    for name in repository.headers:
        yield from ((name, line, text) for line, text in repository.lines(name))
    for name in repository.sources:
        yield from ((name, line, text) for line, text in repository.comments(name))


def without_theirs(head: list[str], row: str) -> str:
    """A row of a table without the cells of a column that has the Rust's names, which are not ours."""
    return " | ".join(cell for title, cell in zip_longest(head, cells_of(row), fillvalue="") if "Rust's name" not in title)


def plain_faults(repository: Repository, name: str) -> Iterator[Fault]:
    """Names in running text: paths, calls, constants and chapters."""
    text = repository.text(name)
    for pattern, exists, missing in PLAIN:
        for match in pattern.finditer(text):
            if match[1] not in allowed() and not exists(repository, match[1]):
                yield Fault(name, line_of(text, match.start(1)), f"{match[1]} is {missing}")
    for match in CHAPTERS.finditer(text):
        for word in re.findall(r"[A-Z]\w+", match[1]):
            if word not in repository.chapters and not word.isupper():
                yield Fault(name, line_of(text, match.start()), f"{word} is no chapter of docs/RULES.md")


def target_faults(repository: Repository, name: str, line: int, text: str) -> Iterator[Fault]:
    for target in MAKE.findall(text):
        if target not in repository.targets:
            yield Fault(name, line, f"make {target}: the Makefile has no such target")
