#!/usr/bin/env python3
"""Holds docs/DECISIONS.md: its entries, its table of crates and its forms.

- Every entry has a number of its own, a point and a status, "in force" or "replaced by N", where N is another entry; then a choice and a why.
  The contents link to every topic and have its numbers, rising.
- Every name that a crate has now, in the table of names, is a crate.
- There are nine forms, and each line of code that they show stands, word for word, in the file that they name.
- No line of it, nor of docs/DIFFERENCES.md, is longer than 400 characters, and what is refused by a number has the name beside it."""

import re
import sys
from pathlib import Path

ROOT = Path(__file__).resolve().parent.parent
PAGE = ROOT / "docs" / "DECISIONS.md"
PLAIN = [PAGE, ROOT / "docs" / "DIFFERENCES.md"]
CONTENTS, NAMES, FORMS_HERE = "Contents", "The names of crates", "Where each form goes"
FORMS = 9
LONGEST_LINE = 400

ENTRY = re.compile(r"\*\*(\d+)\*\* (.+) · (?:in force|replaced by (\d+))")
FORM = re.compile(r"\*\*Form (\d+)\*\* (.+)")
TOPIC = re.compile(r"- \[(.+)\]\(#(.+?)\)(?:: ([\d, ]+))?")
CODE = re.compile(r"`([^`]+)`")
UNNAMED = re.compile(r"\brefus\w+(?: \w+)? by \d+\b(?! \(\w+\)|, | to )", re.I)


def sections():
    """The lines of each section, by its heading."""
    found, lines = {}, []
    for line in PAGE.read_text().splitlines():
        if line.startswith("## "):
            lines = found.setdefault(line[3:], [])
        else:
            lines.append(line)
    return found


def anchor(heading):
    """What a link to a heading says."""
    return re.sub(r"[^\w -]", "", heading.lower()).replace(" ", "-")


def faults_of_entry(lines, index, number, replaced, numbers):
    """What is wrong with one entry, which begins at this line."""
    faults = []
    if replaced and (replaced == number or replaced not in numbers):
        faults.append(f"{number}: replaced by {replaced}, which is no other entry")
    below = lines[index + 1 : next((i for i in range(index, len(lines)) if not lines[i]), len(lines))]
    if not any(line.startswith("- Choice: ") for line in below) or not any(line.startswith("- Why: ") for line in below):
        faults.append(f"{number}: no choice, or no why")
    return faults


def faults_of_entries(topics):
    """What is wrong with the entries of these topics."""
    placed = [(topic, index, line) for topic, lines in topics.items() for index, line in enumerate(lines)]
    found = [(topic, index, ENTRY.fullmatch(line)) for topic, index, line in placed if line.startswith("**")]
    faults = [f"{topic}: no entry: {topics[topic][index]}" for topic, index, entry in found if not entry]
    entries = [(topic, index, entry) for topic, index, entry in found if entry]
    numbers = [entry[1] for _, _, entry in entries]
    faults += [f"{number}: stands twice" for number in sorted(set(numbers)) if numbers.count(number) > 1]
    for topic, index, entry in entries:
        faults += faults_of_entry(topics[topic], index, entry[1], entry[3], numbers)
    return len(entries), faults


def faults_of_contents(pages):
    """What is wrong with the contents: each section, with its entries."""
    told = [TOPIC.fullmatch(line) for line in pages[CONTENTS] if line.startswith("- ")]
    wanted = [heading for heading in pages if heading != CONTENTS]
    if not all(told) or [line[1] for line in told] != wanted:
        return [f"the contents are not {', '.join(wanted)}"]
    faults = []
    for line in told:
        here = [entry[1] for entry in map(ENTRY.fullmatch, pages[line[1]]) if entry]
        if line[2] != anchor(line[1]) or (line[3] or "") != ", ".join(sorted(here, key=int)):
            faults.append(f"{line[1]}: the contents have another link or other entries")
    return faults


def faults_of_names(lines):
    """The names in the second place of each pair that are no crates."""
    pairs = [cell for line in lines if line.startswith("| ") for cell in CODE.findall(line)]
    return [f"{name}: no crate" for name in pairs[1::2] if not (ROOT / "crates" / name).is_dir()]


def faults_of_form(place, shown):
    """What is wrong with the files and lines of a form: a file, and then the lines that stand in it."""
    lines, faults = None, []
    for code in CODE.findall(shown):
        if code.startswith("crates/"):
            path = ROOT / code
            lines = [line.strip() for line in path.read_text().splitlines()] if path.is_file() else []
        elif lines is None:
            faults.append(f"{place}: {code} comes before its file")
        elif code not in lines:
            faults.append(f"{place}: no line is {code}")
    return faults + ([] if lines else [f"{place}: no file"])


def faults_of_forms(lines):
    """What is wrong with the forms."""
    shown, numbers = {}, []
    for line in lines:
        if form := FORM.fullmatch(line):
            numbers.append(int(form[1]))
            place = form[2]
            shown[place] = ""
        elif line.startswith("- Where"):
            shown[place] += line
    faults = [] if numbers == list(range(1, FORMS + 1)) else [f"the forms are not 1 to {FORMS}"]
    return faults + [fault for place, text in shown.items() for fault in faults_of_form(place, text)]


def faults_of_lines():
    """Lines that are too long, and refusals without their names."""
    faults = []
    for path in PLAIN:
        for number, line in enumerate(path.read_text().splitlines(), 1):
            if len(line) > LONGEST_LINE:
                faults.append(f"{path.name}, line {number}: longer than {LONGEST_LINE} characters")
            if UNNAMED.search(line):
                faults.append(f"{path.name}, line {number}: a refusal without its name")
    return faults


def main():
    pages = sections()
    topics = {heading: lines for heading, lines in pages.items() if heading not in (CONTENTS, NAMES, FORMS_HERE)}
    count, faults = faults_of_entries(topics)
    faults += faults_of_contents(pages) + faults_of_names(pages[NAMES]) + faults_of_forms(pages[FORMS_HERE]) + faults_of_lines()
    print(f"{count} decisions, {FORMS} forms, {len(faults)} faults")
    sys.exit("\n".join(faults) or 0)


if __name__ == "__main__":
    main()
