"""All checks, and what they find in a folder of the project. Each is a file here, whose first words say what it holds:

    links        relative links and their anchors          figures      figures that stand twice, or can be counted
    names        names in code style and in running text   named        calls, edits and crates, each in its table
    cited        names beside the file that has them       lines        long lines, spaces, words from elsewhere
    declared     the calls in the header, code and Rust    decisions    numbers of docs/DECISIONS.md
    records      the records of calls                      versions     the version
    orders       the order of refusals                     scripts      the scripts in tests that hold the rules and the proofs
    refusals     numbers of refusals with their names

repository has what they read, definitions the orders that are proved; allowed.txt the words that may stand, each with a reason."""

from pathlib import Path

import cited
import decisions
import declared
import figures
import lines
import links
import named
import names
import orders
import records
import refusals
import scripts
import versions
from repository import Fault, Repository

CHECKS = [links, names, cited, declared, records, orders, refusals, figures, named, lines, decisions, versions, scripts]


def found_in(root: Path, checks: list = CHECKS) -> list[Fault]:
    """The faults in the order of their files and lines, each once."""
    repository = Repository(root)
    return sorted({fault for check in checks for fault in check.faults(repository)})
