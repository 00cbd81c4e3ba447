"""Citations: a name that a document says to stand in a file stands there. It is said by a link from the name to the file, by the file in brackets
behind names, or by names behind a link to the file."""

import re
from typing import Iterator

from links import REFERENCE, references, target
from names import FREE
from repository import Fault, Repository

NAMES = r"((?:`[^`]+`(?:, | and |; )?)+)"
FILE = r"([^)\s#]+\.(?:antt|rt|edit))"

LINKED = re.compile(rf"\[`([^`]+)`\]\({FILE}\)")
FILE_BEHIND = re.compile(rf"{NAMES} \((?:\[[^\]]*\]\({FILE}\)|`(crates/[^`]+\.antt)`)")
NAMES_BEHIND = re.compile(rf"\[[^\]]+\]\({FILE}\)((?: `[^`]+`)+)")


def with_links(text: str, labels: dict[str, str]) -> str:
    """A line with the link of each label written behind it."""
    return re.sub(r"\[([^\]\[]+)\](?![(:])", lambda match: f"[{match[1]}]({labels[match[1]]})" if match[1] in labels else match[0], text)


def stands_in(repository: Repository, file: str, name: str) -> bool:
    """Whether a file has a name: an edit is one by its own, an item of the code by its last part, all else as a word."""
    if file.endswith(".edit"):
        return file.removesuffix(".edit").endswith("/" + name.split("/")[-1]) and f"/{name.split('/')[0]}/" in file
    word = name.split("::")[-1]
    return bool(re.search(rf"(?<![\w-]){re.escape(word)}(?![\w-])", repository.text(file)))


def cited(name: str, text: str) -> Iterator[tuple[str, str]]:
    """The names of a line, each with the file in which it is said to stand."""
    for word, file in LINKED.findall(text):
        yield word, target(name, file)
    for words, linked, plain in FILE_BEHIND.findall(text):
        yield from ((word, plain or target(name, linked)) for word in re.findall(r"`([^`]+)`", words))
    for file, words in NAMES_BEHIND.findall(text):
        yield from ((word, target(name, file)) for word in re.findall(r"`([^`]+)`", words))


def faults(repository: Repository) -> Iterator[Fault]:
    for name in repository.current:
        labels = references(repository, name)
        for line, text in repository.prose(name):
            if REFERENCE.match(text) and not text.startswith("[`"):
                continue
            text = re.sub(r"^(\[`[^`]+`\]): (\S+)$", r"\1(\2)", text)
            for word, file in cited(name, with_links(text, labels)):
                if file in repository.paths and not FREE.fullmatch(word) and not stands_in(repository, file, word):
                    yield Fault(name, line, f"`{word}` does not stand in {file}")
