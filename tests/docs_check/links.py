"""Links: every relative link of a document leads to a file, and its anchor to a heading there; a label in brackets has its link."""

import posixpath
import re
from typing import Iterator

from repository import Fault, Repository

LINK = re.compile(r"\[[^\]]*\]\(([^)\s]+)\)")
LABEL = re.compile(r"\[([^\]\[]+)\](?![(:\[])|\[[^\]]*\]\[([^\]]+)\]")
REFERENCE = re.compile(r"^\[([^\]]+)\]: (\S+)$")
ELSEWHERE = re.compile(r"[a-z]+:")


def slug(heading: str) -> str:
    """The anchor that a heading has: small letters, no marks but hyphens, hyphens for spaces."""
    shown = re.sub(r"\[([^\]]*)\]\([^)]*\)", r"\1", heading)
    return re.sub(r"[^\w\- ]", "", shown.lower()).replace(" ", "-")


def anchors(repository: Repository, name: str) -> set[str]:
    """The anchors of a document; a heading that comes again has a number behind it."""
    found: set[str] = set()
    for _, heading in repository.headings(name):
        anchor, count = slug(heading), 0
        while (f"{anchor}-{count}" if count else anchor) in found:
            count += 1
        found.add(f"{anchor}-{count}" if count else anchor)
    return found


def target(name: str, link: str) -> str:
    """The file that a link of a document leads to."""
    path = link.partition("#")[0]
    return posixpath.normpath(posixpath.join(posixpath.dirname(name), path)) if path else name


def references(repository: Repository, name: str) -> dict[str, str]:
    """The links that a document gives to labels."""
    matches = [REFERENCE.match(text) for _, text in repository.prose(name)]
    return {match[1]: match[2] for match in matches if match}


def faults(repository: Repository) -> Iterator[Fault]:
    known: dict[str, set[str]] = {}
    for name in repository.documents:
        labels = references(repository, name)
        for line, text in repository.prose(name):
            reference = REFERENCE.match(text)
            for link in [reference[2]] if reference else LINK.findall(re.sub(r"`[^`]*`", "", text)):
                if not ELSEWHERE.match(link):
                    yield from link_faults(repository, name, line, link, known)
            if labels and not reference:
                yield from label_faults(name, line, text, labels)


def link_faults(repository: Repository, name: str, line: int, link: str, known: dict[str, set[str]]) -> Iterator[Fault]:
    file, anchor = target(name, link), link.partition("#")[2]
    if file not in repository.paths:
        yield Fault(name, line, f"the link {link} leads to no file")
    elif anchor and file.endswith(".md"):
        if file not in known:
            known[file] = anchors(repository, file)
        if anchor not in known[file]:
            yield Fault(name, line, f"the link {link} leads to no heading of {file}")


def label_faults(name: str, line: int, text: str, labels: dict[str, str]) -> Iterator[Fault]:
    """Labels that look like those of the document, a name with a capital letter or a code word, and have no link."""
    for first, second in LABEL.findall(re.sub(r"`[^`]*\[[^`]*`", "", text)):
        label = first or second
        if label not in labels and (second or re.fullmatch(r"[A-Z][A-Za-z]+|`[^`]+`|\w+/\w+", label)):
            yield Fault(name, line, f"the label [{label}] has no link")
