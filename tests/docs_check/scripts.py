"""The scripts that hold the page of rules, the table of forms, the proofs' first words, the laws and the picture of the rooms: what each finds."""

import re
import subprocess
import sys
from typing import Iterator

from repository import Fault, Repository

# Each script with its words, and the file or folder that it speaks of where it names none itself.
SCRIPTS = {
    ("tests/rules_page.py",): "docs/RULES.md",
    ("tests/forms_page.py",): "docs/DECISIONS.md",
    ("tests/proofs_speak.py",): "crates",
    ("tests/said_once.py",): "crates",
    ("docs/picture/rooms.py", "--check"): "docs/picture/rooms.svg",
}


def faults(repository: Repository) -> Iterator[Fault]:
    for (script, *words), subject in SCRIPTS.items():
        run = subprocess.run([sys.executable, "-B", repository.root / script, *words], capture_output=True, text=True)
        said = [line for line in run.stderr.splitlines() if line.strip()]
        for line in said or ([f"{script} ended with {run.returncode}"] if run.returncode else []):
            place = re.match(r"([\w./-]+\.\w+):(\d+): (.*)", line)
            yield Fault(place[1], int(place[2]), place[3]) if place else Fault(subject, 1, line)
