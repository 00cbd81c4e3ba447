#!/usr/bin/env python3
"""Holds docs/RULES.md against the definitions.

- The contents have the four parts, and link to every chapter and to its file; the chapters stand below as the contents have them.
- Every chapter has its file and every file its chapter; the chapters of a crate stand in the order of its files, and a chapter uses those
  above it alone; so all that the promises are made of is on the page.
- The file's first line names the chapter; every definition is named in its chapter; every definition that the page names is there. A file
  that says a chapter once more, over any arithmetic, names nothing that the page does not.
- The table of calls has a row for every call of include/hullashlar.h, and one for those of include/hullashlar_doubles.h: the promise of the
  call, and the chapters that the promise stands on, followed from definition to definition, in the page's order.
- The chapter Refusals has the name of each refusal as the header has it; what is refused by a number has the name beside it.
- No line is longer than 400 characters.

Prints each definition with its line on the page."""

import re
import sys
from pathlib import Path

ROOT = Path(__file__).resolve().parent.parent
PAGE = ROOT / "docs" / "RULES.md"
PARTS = ["Part 1: The surface", "Part 2: The calls", "Part 3: The sheet and the programs", "Part 4: The calls for C"]
LONGEST_LINE = 400

# The crates whose files have chapters.
CRATES = [
    "rules",
    "grid",
    "grid_checks",
    "tensor_verify",
    "query_even",
    "query_direct",
    "query_profile",
    "many_points",
    "query_many",
    "step_axis",
    "step_surface",
    "step_many",
    "base_bits",
    "grid_codes",
    "sheet_read",
    "sheet_build",
    "sheet_write",
    "sheet_patterns",
    "sheet_surface",
    "device_cell",
    "device_cursor",
    "base_text",
    "program_tensor_text",
    "program_sheet_text",
    "program_device_text",
    "report_front",
    "report_totals",
    "report",
    "program_report_text",
    "c_axes",
    "c_refusals",
    "c_curve",
    "c_tensor",
    "c_verify",
    "c_query",
    "c_direct",
    "c_profile",
    "c_many",
    "c_sheet",
    "c_step",
    "c_step_many",
    "c_device",
    "exact_arithmetic",
    "exact_rationals",
    "exact_spline",
    "exact_rounding",
    "exact_floats",
    "exact_calls",
    "exact_bounds",
    "doubles_patterns",
    "hullashlar_doubles",
]

# Files that say what functions need from each other, or what follows from promises, and no promise of a public call.
NOT_RULES = {
    "grid_checks/Checked",
    "grid_checks/Check",
    "grid_checks/SizesFound",
    "grid_checks/Rising",
    "c_refusals/OwnSizes",
    "tensor_verify/Compared",
    "query_even/Lacking",
    "query_profile/Profiled",
    "many_points/PointByPoint",
    "query_many/ByWay",
    "step_axis/AmongKnots",
    "step_surface/OnPoints",
    "step_surface/Indices",
    "step_many/StepByStep",
    "base_bits/BitsThere",
    "sheet_read/FoundSoFar",
    "sheet_read/Heads",
    "sheet_build/LentEnough",
    "sheet_write/PartsWithRoom",
    "sheet_write/RoundTrip",
    "c_sheet/RoundTrip",
    "sheet_surface/OnTheStack",
    "base_text/PutBytes",
    "report_totals/Counting",
    "report_front/LookedAt",
    "report/Feeding",
    "device_cell/CellWeights",
    "device_cursor/Columns",
    "doubles_patterns/Patterns",
    "doubles_patterns/Finite",
    "exact_spline/Rows",
    "exact_rounding/Errors",
}

# Chapters about no file.
PROSE = {"AnyArithmetic", "Program", "Surface"}

# The one chapter that uses one below it: it says the queries of both Calls and EvenCalls once more.
AHEAD = {("Extended", "EvenCalls")}

# The crate whose files say chapters of the rules once more, over any arithmetic; what they name beside, the chapter AnyArithmetic names.
AGAIN, BESIDE = "exact_spline", "AnyArithmetic"

MODULE = re.compile(r"pub mod (\w+)")
DEFINITION = re.compile(r"\s*(?:(?:abbrev|unfoldable)(?: pub)?|pub record) (\S+)")
USE = re.compile(r"use Rattle\.(?!std\.)(\w+)\.specs\.(\w+)")
IMPORTED = re.compile(r"use Rattle\.(?!std\.)(\w+)\.specs\.([\w.-]+?)\.\{([^}]*)\}")
RENAMED = re.compile(r"use Rattle\.(?!std\.)[^\s{]+ as ")
CODE = re.compile(r"`([^` ]+)`")

# Where a crate's types stand, which its code declares.
TYPES = "declared"

# What stands in code style and is no name of a definition: paths, and functions of the code.
OF_CODE = re.compile(r"\w+[_/:.]")

# Of the page: a line of the contents, a link by a chapter's name, where such a link leads, and a row of the table of calls.
CONTENTS_LINE = re.compile(r"\| \[(\w+)\] \| (?:\[(\w+)\]\((\S+)\))? *\| ")
LINK = re.compile(r"\[([A-Z]\w+)\](?![(:])")
LEADS = re.compile(r"\[(\w+)\]: #(\S+)")
CALL_ROW = re.compile(r"\| `(hullashlar_\w+)`(.*?) \| (?:`(\w+)`)?.* \| (.*) \|")
REFUSAL_ROW = re.compile(r"\| (\d+) \| (\w+) \| ")
DOUBLES_ROW = "hullashlar_soft_add"

# Of a file of definitions: the words of a definition, and what binds a name in it.
COMMENT = re.compile(r"--.*")
SCOPE = re.compile(r" *module _ ")
FIELD_OF = re.compile(r"(?<=[\w')])\.\w[\w']*")
WORD = re.compile(r"[^\s(){};,]+")
BINDS = re.compile(r"[({]([^(){}:]+) :|λ ([^.]+)\.|let (\S+) |pub (\S+) :|(\S+) =")

# Of the code of the exports and of the headers.
GHOST_USE = re.compile(r"ghost use Rattle\.(\w+)\.specs\.(\w+)\.\{([^}]*)\}")
EXPORT = re.compile(r'pub extern "C" fn (\w+)\(.*?ensures \{ (\w+)', re.S)
DECLARED_CALL = re.compile(r"^uint\d+_t (hullashlar_\w+)\(", re.M)
UNNAMED = re.compile(r"\brefus\w+(?: \w+)? by \d+\b(?! \(\w+\)|, | to )", re.I)
REFUSAL_NAME = re.compile(r"HULLASHLAR_REFUSED_(\w+) = (\d+)")


def named_files():
    """The crate, the name and the text of every file of definitions of these crates, in their order."""
    for crate in CRATES:
        specs = ROOT / "crates" / crate / "specs"
        for name in MODULE.findall((specs / "Lib.antt").read_text()):
            yield crate, name, (specs / f"{name}.antt").read_text()


def files():
    """Of each chapter that has a file, its crate and its lines."""
    found = {}
    for crate, name, text in named_files():
        if f"{crate}/{name}" in NOT_RULES or crate == AGAIN and name in found:
            continue
        if name in found:
            sys.exit(f"{name}: two files have the name of this chapter")
        found[name] = (crate, text.splitlines())
    return found


def again(chapters):
    """The lines of each file that says one of these chapters once more."""
    told = {name: text.splitlines() for crate, name, text in named_files() if crate == AGAIN and chapters.get(name, (AGAIN,))[0] != AGAIN}
    return {name: text for name, text in told.items() if name in chapters}


class Page:
    """The page: its contents, its table of calls, where its links lead, and of each chapter the code words with their lines."""

    def __init__(self):
        self.contents, self.calls, self.leads = {}, {}, {}
        self.parts, self.chapters, self.refusal_rows = [], {}, {}
        self.long_lines, self.unnamed, self.links = [], [], set()
        part, chapter, words = None, None, {}
        for number, line in enumerate(PAGE.read_text().splitlines(), 1):
            if len(line) > LONGEST_LINE:
                self.long_lines.append(number)
            if UNNAMED.search(line):
                self.unnamed.append(number)
            if line.startswith("## "):
                part, chapter, words = line[3:], None, {}
                self.parts += [part] if part in PARTS else []
            elif line.startswith("### ") and part in PARTS:
                chapter = line[4:]
                words = self.chapters.setdefault(chapter, {})
            self.take_rows(line, part, chapter)
            self.leads.update(LEADS.findall(line))
            self.links.update(LINK.findall(line))
            for word in CODE.findall(line):
                words.setdefault(word, number)

    def take_rows(self, line, part, chapter):
        """A row of the contents or of the calls, which stand before the parts, or of the refusals."""
        if part not in PARTS:
            if row := CONTENTS_LINE.match(line):
                self.contents[row[1]] = (row[2], row[3])
            elif row := CALL_ROW.match(line):
                self.calls[row[1]] = (row[3], LINK.findall(row[4]))
        elif chapter == "Refusals" and (row := REFUSAL_ROW.match(line)):
            self.refusal_rows[int(row[1])] = row[2]


def words_bound(text):
    """The names that a text binds: parameters, fields, and what is named by a let or a lambda."""
    return {word for groups in BINDS.findall(text) for group in groups for word in group.split()}


def blocks(text):
    """Of each definition in a file, its text and the names that the modules around it bind."""
    found, scopes, scope, name = {}, [], None, None
    for line in filter(str.strip, text.splitlines()):
        depth = len(line) - len(line.lstrip())
        start, opens = DEFINITION.match(line), SCOPE.match(line)
        if start or opens:
            scopes = [(at, words) for at, words in scopes if at < depth]
        if opens:
            scope, name = [depth, ""], None
        if start:
            scope, name = None, start[1]
            found[name] = ["", {word for _, words in scopes for word in words}]
        if scope:
            scope[1] += f" {line}"
            if line.endswith("where"):
                scopes.append((scope[0], words_bound(scope[1])))
                scope = None
        elif name:
            found[name][0] += f"\n{line}"
    return found


def imports(text):
    """What each imported name stands for: a crate, a file and a definition."""
    found = {}
    for crate, name, words in IMPORTED.findall(text):
        for word in filter(str.strip, words.split(",")):
            theirs, _, ours = word.strip().partition(" as ")
            found[ours or theirs] = (crate, name, theirs)
    return found


def stands_on_directly():
    """Of each definition, those that its text names."""
    found = {}
    for crate, file, text in named_files():
        text = COMMENT.sub("", text)
        told = blocks(IMPORTED.sub("", text))
        known = {**{name: (crate, file, name) for name in told}, **imports(text)}
        for name, (body, around) in told.items():
            sides = [line.split(" =")[0] for line in body.splitlines()[2:] if line.split()[0] == name and " =" in line]
            local = around | words_bound(body) | {word for side in sides for word in WORD.findall(side)}
            words = set(WORD.findall(FIELD_OF.sub("", body))) - local
            found[crate, file, name] = {known[word] for word in known if word != name and {word, word.strip("◌")} & words}
    return found


def chapters_below(promise, direct):
    """The files of all definitions that a promise stands on, its own among them."""
    seen, left = set(), [promise]
    while left:
        here = left.pop()
        if here not in seen:
            seen.add(here)
            left += direct.get(here, ())
    return {file for _, file, _ in seen}


def exports(crate):
    """The promise of each exported call of a crate."""
    text = (ROOT / "crates" / crate / "src" / "lib.rt").read_text()
    known = {name.strip(): (home, file, name.strip()) for home, file, names in GHOST_USE.findall(text) for name in names.split(",")}
    return {call: known[promise] for call, promise in EXPORT.findall(text)}


def faults_of_contents(page, lines):
    """What is wrong with the parts, the contents and the order of the chapters."""
    faults = [] if page.parts == PARTS else [f"the parts are not {', '.join(PARTS)}"]
    if list(page.contents) != list(page.chapters):
        faults.append("the contents are not the chapters, in their order")
    if set(lines) != set(page.chapters) - PROSE:
        faults.append(f"chapters without a file, or files without a chapter: {set(lines) ^ (set(page.chapters) - PROSE)}")
    for chapter, (crate, path) in page.contents.items():
        if page.leads.get(chapter) != chapter.lower():
            faults.append(f"{chapter}: no link leads to it")
        if chapter in lines and (crate, path) != (lines[chapter][0], f"../crates/{lines[chapter][0]}/specs/{chapter}.antt"):
            faults.append(f"{chapter}: the contents do not have its file")
    for crate in CRATES:
        ordered = [chapter for chapter in lines if lines[chapter][0] == crate]
        if ordered != [chapter for chapter in page.chapters if chapter in ordered]:
            faults.append(f"{crate}: its chapters are not in the order of its files")
    faults += [f"line {number}: a refusal without its name" for number in page.unnamed]
    faults += [f"[{name}]: no chapter" for name in sorted(page.links - set(page.leads))]
    return faults + [f"line {number}: longer than {LONGEST_LINE} characters" for number in page.long_lines]


def faults_of_calls(page):
    """What is wrong with the table of calls."""
    faults, direct, order = [], stands_on_directly(), list(page.chapters)
    header = (ROOT / "include" / "hullashlar.h").read_text()
    doubles = (ROOT / "include" / "hullashlar_doubles.h").read_text()
    renamed = {name for crate, name, text in named_files() if crate != AGAIN and RENAMED.search(text)}
    promises = exports("hullashlar_c")
    declared = DECLARED_CALL.findall(header)
    if set(page.calls) != {*declared, DOUBLES_ROW} or set(declared) != set(promises):
        faults.append(f"calls: {set(page.calls) ^ {*declared, DOUBLES_ROW} or set(declared) ^ set(promises)}")
    soft = exports("hullashlar_doubles")
    if set(soft) != set(DECLARED_CALL.findall(doubles)):
        faults.append("include/hullashlar_doubles.h does not declare the exports of hullashlar_doubles")
    for call, (promise, told) in page.calls.items():
        targets = list(soft.values()) if call == DOUBLES_ROW else [promises.get(call, ("", "", ""))]
        if call != DOUBLES_ROW and promise != targets[0][2]:
            faults.append(f"{call}: its promise is {targets[0][2]}")
        below = set().union(*(chapters_below(target, direct) for target in targets))
        faults += [f"{call}: {file} imports a whole file, which is not followed" for file in sorted(below & renamed)]
        wanted = [chapter for chapter in order if chapter in below]
        if told != wanted:
            faults.append(f"{call}: the chapters are {' '.join(f'[{chapter}]' for chapter in wanted)}")
    names = {int(number): name.lower() for name, number in REFUSAL_NAME.findall(header)}
    if names != page.refusal_rows:
        faults.append("Refusals: the names are not those of include/hullashlar.h")
    return faults


def faults_of_files(page, lines, told_again):
    """What is wrong with the first lines of the files and with what they use."""
    faults, order = [], list(page.chapters)
    for chapter, text in told_again.items():
        if not text[0].startswith(f"-- The chapter {chapter} of docs/RULES.md, over any arithmetic: "):
            faults.append(f"{chapter}: the file's first line does not name the chapter, over any arithmetic")
    for chapter, (_, text) in lines.items():
        if not text[0].startswith(f"-- The chapter {chapter} of docs/RULES.md: "):
            faults.append(f"{chapter}: the file's first line does not name the chapter")
        for crate, name in (match.groups() for match in map(USE.match, text) if match):
            if crate not in CRATES or name not in lines and name != TYPES:
                faults.append(f"{chapter}: uses {name} of {crate}, which has no chapter")
            elif name != TYPES and order.index(name) > order.index(chapter) and (chapter, name) not in AHEAD:
                faults.append(f"{chapter}: uses {name}, which stands below it")
    return faults


def faults_of_words(page, defined, twice):
    """What is wrong with the definitions that the chapters name; prints each with its line."""
    known = {name for names in [*defined.values(), *twice.values()] for name in names}
    faults = []
    for chapter, names in twice.items():
        beside = {**page.chapters[chapter], **page.chapters[BESIDE]}
        faults += [f"{chapter}, over any arithmetic: no line says {name}" for name in names if name not in beside]
    for chapter, words in page.chapters.items():
        for name in defined.get(chapter, []):
            if name in words:
                print(f"{chapter}: {name} -> line {words[name]}")
            else:
                faults.append(f"{chapter}: no line says {name}")
        faults += [f"{chapter}: {word} is no definition" for word in words if word not in known and not OF_CODE.match(word)]
    return faults


def definitions(text):
    """The names of the definitions of a file."""
    return [match[1] for match in map(DEFINITION.match, text) if match]


def main():
    page, lines = Page(), files()
    told_again = again(lines)
    faults = faults_of_contents(page, lines)
    if not faults:
        defined = {chapter: definitions(text) for chapter, (_, text) in lines.items()}
        twice = {chapter: definitions(text) for chapter, text in told_again.items()}
        faults = faults_of_files(page, lines, told_again) + faults_of_words(page, defined, twice) + faults_of_calls(page)
        count = sum(map(len, defined.values()))
        print(f"{count} definitions, {len(page.chapters)} chapters, {len(page.calls)} rows of calls, {len(faults)} faults")
    sys.exit("\n".join(faults) or 0)


if __name__ == "__main__":
    main()
