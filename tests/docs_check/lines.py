"""Lines: none of a document or a header is too long or ends in spaces; nowhere does a word speak of something else than the project, and nothing is
left of a merge."""

import re
from functools import cache
from typing import Iterator

from repository import Fault, Repository, line_of

LONGEST = 400

# The page of the port has old and new side by side, each as it stands.
AS_IT_STANDS = "docs/PORT.md"

# A letter of each stands in brackets, so that this line is not such a one.
NO_WORDS = re.compile(r"\bs[e]ssions?\b|\bp[r]ompts?\b|\bsub-?[a]gents?\b|\bh[e]lper agents?\b|/[w]ork/|^(?:<{7}|>{7}) ", re.I | re.M)
TEXTS = r"Makefile|NOTICE|crates\.txt|\.ci/run|.*\.(?:md|h|rs|c|py|rt|antt|txt|toml|edit|slip|S|ld|[137])"


def faults(repository: Repository) -> Iterator[Fault]:
    for name in [*repository.documents, *repository.headers]:
        for line, text in repository.lines(name):
            if len(text) > LONGEST and name != AS_IT_STANDS:
                yield Fault(name, line, f"{len(text)} characters, of at most {LONGEST}")
            if text != text.rstrip():
                yield Fault(name, line, "ends in spaces")
    for name in repository.matching(TEXTS):
        for line, word in other_words(repository.text(name)):
            yield Fault(name, line, f"{word.strip()} is no word of this project")


@cache
def other_words(text: str) -> list[tuple[int, str]]:
    """The lines of a text that have such a word."""
    return [(line_of(text, match.start()), match[0]) for match in NO_WORDS.finditer(text)]
