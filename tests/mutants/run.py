#!/usr/bin/env python3
"""Puts random mutants to the prover: run.py N [SEED [CODE|DEFINITIONS]] makes N of them, of the library's code and of the definitions that
promises are made of by turns, each with one operator, constant or comparison changed or two operands exchanged, and tries each in a copy of
the repository. A mutant of the code is tried on its crate, since contracts keep callers apart; one of a definition or of a constant, which
has none, on its crate and then on those above it, until one refuses. Prints each that is accepted with its place, and at the end how many
were refused. Fails where one is accepted that equal.txt beside this file does not list."""

import random
import re
import shutil
import subprocess
import sys
import tempfile
from pathlib import Path
from zlib import crc32

HERE = Path(__file__).resolve().parent
ROOT = HERE.parent.parent
sys.dont_write_bytecode = True
sys.path.insert(0, str(ROOT / "tests"))
from rules_page import CRATES as DEFINING, NOT_RULES  # noqa: E402

EQUAL = HERE / "equal.txt"

# What the prover said of each mutant.
SAID = ROOT / "target" / "mutants"

# Crates that are no part of the library: programs, and what they print and are tried on.
NOT_LIBRARY = re.compile(r"trial_|program_|sheet_tensor$|sheet_report$|device_curve$")

# What each word becomes; the first that the file has at hand where a definition has a choice.
OF_CODE = {
    "+": "-*", "-": "+", "*": "+/", "/": "*", "%": "/*", "<": ["<=", ">"], "<=": ["<"], ">": [">="], ">=": [">"], "==": ["!="],
    "!=": ["=="], "+=": ["-="], "-=": ["+="], "<<": [">>"], ">>": ["<<"], "&": "|",
}
OF_DEFINITIONS = {
    "⊕": "⊖⊗", "⊖": "⊕", "⊗": "⊘⊕", "⊘": "⊗", "+": "-*", "-": "+", "*": "+", "/": "%*", "%": "/", "^": "*+", "<": "≤", "≤": "<",
    "ltb": ["leb", "eqb"], "leb": ["ltb"], "eqb": ["ltb", "leb"], "true": ["false"], "false": ["true"],
    "one": ["two", "three"], "two": ["three", "one"], "three": ["two", "six"], "six": ["three", "two"],
}
EXCHANGED = {"-", "/", "%", "<", "<=", "<<", "^", "≤", "⊖", "⊘"}

OPERAND = r"[\w.']+(?:\[[^][]*\])?"
INFIX = re.compile(r"(?<= )([-+*/%<>^&⊕⊖⊗⊘≤]|<=|>=|==|!=|\+=|-=|<<|>>)(?= )")
ORDER = re.compile(rf"(?<![\w\]).'])({OPERAND}) ([-/%<^⊖⊘≤]|<=|<<) ({OPERAND})(?![\w(\['])")
NAMED = re.compile(r"(?<![\w.'-])(ltb|leb|eqb|true|false|one|two|three|six)(?![\w'-])")
COMPARED = re.compile(r"(?<![\w.'-])(ltb|leb) ([\w.]+|\([^()]*\)) ([\w.]+|\([^()]*\))(?![\w(\['.])")
WHOLE = re.compile(r"(?<![\w.'-])(\d+)(?![\w.'-])")
FLOAT = re.compile(r"(?<![\w.])(\d+\.\d+)(?![\w.])")

DEFINITION = re.compile(r"^\s*(?:(?:unfoldable|abbrev)(?: pub)?|pub record) (\S+)", re.M)

CONSTANT = re.compile(r"^\s*pub const (\w+)")

# What a check ends in that has reached the prover. Without it the text is no program, and says nothing about contracts.
NOT_PROVED = re.compile(r"^logic=not-proved", re.M)

# The status of a check in which the prover met a limit of its own: what it does not prove is not accepted.
AT_A_LIMIT = 3


class Mutant:
    def __init__(self, path, number, line, changed):
        self.path, self.number, self.line, self.changed = path, number, line, changed

    @property
    def crate(self):
        return self.path.relative_to(ROOT / "crates").parts[0]

    def place(self):
        return f"{self.path.relative_to(ROOT)}:{self.number}"

    def name(self):
        """The name of the file with what was said of it."""
        return f"{self.crate}_{self.path.stem}_{self.number}_{crc32(self.changed.encode()):08x}"

    def key(self):
        """What a mutant is called in equal.txt: its file, and the line before and after."""
        return f"{self.path.relative_to(ROOT)}: {self.line.strip()} -> {self.changed.strip()}"


def code_files():
    folders = [crate for crate in sorted((ROOT / "crates").iterdir()) if not NOT_LIBRARY.match(crate.name)]
    return [path for crate in folders for path in sorted(crate.glob("src/**/*.rt"))]


def definition_files():
    found = []
    for crate in DEFINING:
        if not NOT_LIBRARY.match(crate):
            paths = sorted((ROOT / "crates" / crate / "specs").glob("*.antt"))
            found += [path for path in paths if path.stem != "Lib" and f"{crate}/{path.stem}" not in NOT_RULES]
    return found


def blanked(match):
    return re.sub(r"[^\n]", " ", match.group())


def code_alone(text):
    """The text of code with all else blank: comments, imports, attributes, contracts, signatures and the types of arrays."""
    text = re.sub(r"//.*", blanked, text)
    text = re.sub(r"^\s*(?:pub |ghost )?(?:use|mod) [^;]*;|^\s*#\[.*\]|^\s*(?:pub )?const [^=]*", blanked, text, flags=re.M)
    text = re.sub(r"\b(?:pub )?(?:extern \"C\" )?fn \w+\([^{]*?\)(?: -> [^\n{]*?)?(?=\s*(?:\{|requires|ensures|ghost))", blanked, text)
    clause = re.compile(r"\b(?:requires|ensures|ghost) \{")
    while found := clause.search(text):
        end, depth = found.end(), 1
        while depth:
            depth += {"{": 1, "}": -1}.get(text[end], 0)
            end += 1
        text = text[:found.start()] + re.sub(r"[^\n]", " ", text[found.start():end]) + text[end:]
    return re.sub(r"\[\w+; \w+\]", blanked, text)


def definitions_alone(text):
    """The text of definitions with comments, imports and the levels of types blank."""
    return re.sub(r"--.*|^\s*(?:use|unfolding|module|open)\b.*|\bType \d+", blanked, text, flags=re.M)


def at_hand(text, word):
    """Whether a definition's file can use a word: an operator that it imports, or a name that stands in it."""
    return f"◌{word}◌" in text or re.search(rf"(?<![\w-]){re.escape(word)}(?![\w-])", text) is not None


def changes_of(line, words, usable):
    """What can become of a line: the places where it is changed, with the new text of each."""
    for found in [*INFIX.finditer(line), *NAMED.finditer(line)]:
        for word in words.get(found.group(1), []):
            if usable(word):
                yield found.span(1), word
    for found in WHOLE.finditer(line):
        number = int(found.group(1))
        for other in {number + 1, max(number - 1, 0)} - {number}:
            yield found.span(1), str(other)
    for found in FLOAT.finditer(line):
        for other in ("0.0", "1.0", "2.0", "3.0"):
            if other != found.group(1):
                yield found.span(1), other
    for found in ORDER.finditer(line):
        left, between, right = found.groups()
        if between in EXCHANGED and left != right:
            yield found.span(), f"{right} {between} {left}"
    for found in COMPARED.finditer(line):
        compare, left, right = found.groups()
        if left != right:
            yield found.span(), f"{compare} {right} {left}"


def mutants_of(path):
    text = path.read_text()
    of_code = path.suffix == ".rt"
    alone, words = (code_alone(text), OF_CODE) if of_code else (definitions_alone(text), OF_DEFINITIONS)
    usable = (lambda word: True) if of_code else (lambda word: at_hand(text, word))
    for number, (line, code) in enumerate(zip(text.splitlines(), alone.splitlines()), 1):
        for (start, end), new in changes_of(code, words, usable):
            yield Mutant(path, number, line, line[:start] + new + line[end:])


def stands_on():
    """The library's crates in the order of crates.txt, each with all that it stands on."""
    below = {}
    for line in (ROOT / "crates.txt").read_text().splitlines():
        if line.strip() and not line.startswith("#"):
            name, on = line.replace(" staticlib", "").split(":")
            below[name] = set(on.split()).union(*(below.get(other, set()) for other in on.split()))
    return {name: on for name, on in below.items() if not NOT_LIBRARY.match(name)}


def defined_in(path):
    """The definitions of a file: the name of each, and its text."""
    parts = DEFINITION.split(path.read_text())
    return list(zip(parts[1::2], parts[2::2]))


def mentions(text, name):
    return re.search(rf"(?<![\w-]){re.escape(name)}(?![\w-])", text) is not None


def climb(mutant, below):
    """The crates above that of a mutant of a definition or of a constant: first those that name it, then those that name what is made of it, then those that
    name its file, and of each those first that stand on the fewest."""
    before = mutant.path.read_text().splitlines()[:mutant.number]
    names = CONSTANT.findall(mutant.line) or DEFINITION.findall("\n".join(before))
    name = names[-1] if names else mutant.path.stem
    beside = [found for path in mutant.path.parent.glob("*.antt") for found in defined_in(path)]
    made_of_it = [other for other, text in beside if mentions(text, name)]
    file = f"Rattle.{mutant.crate}.specs.{mutant.path.stem}"

    def distance(crate):
        folder = ROOT / "crates" / crate
        text = "".join(path.read_text() for part in ("src", "specs", "proofs") for path in folder.glob(f"{part}/**/*.*t") if path.is_file())
        tests = [mentions(text, name), any(mentions(text, other) for other in made_of_it), file in text, True]
        return tests.index(True), len(below[crate])

    return sorted((crate for crate, on in below.items() if mutant.crate in on), key=distance)


class Copy:
    """A copy of the crates. What is proved of them `rt` takes from what earlier checks kept on this machine."""

    def __init__(self, folder):
        self.folder = Path(folder)
        shutil.copytree(ROOT / "crates", self.folder / "crates", ignore=shutil.ignore_patterns("must-fail", "out"))
        shutil.copy(ROOT / "crates.txt", self.folder)

    def refuses(self, crate):
        """What the check of a crate said where the prover does not accept; nothing where it does. Ends the run where it could not tell."""
        at = self.folder / "crates" / crate
        done = subprocess.run(["rt", "check"], cwd=at, text=True, stdout=subprocess.PIPE, stderr=subprocess.STDOUT)
        if done.returncode not in (0, 1, AT_A_LIMIT):
            sys.exit(f"{crate}: rt check ended with status {done.returncode}:\n{done.stdout}")
        return (done.stdout or "refused") if done.returncode else ""

    def with_it(self, mutant, ask):
        """What a question is answered where a mutant stands in the place of its line."""
        path = self.folder / mutant.path.relative_to(ROOT)
        whole = path.read_text()
        lines = whole.splitlines(keepends=True)
        lines[mutant.number - 1] = mutant.changed + "\n"
        path.write_text("".join(lines))
        answer = ask()
        path.write_text(whole)
        return answer

    def screened(self, mutant):
        """What the check of its own crate says against a mutant."""
        return self.with_it(mutant, lambda: self.refuses(mutant.crate))

    def judged(self, mutant, below):
        """The first crate above a mutant's own that the check refuses, and what it says: for what has no contract."""
        open_above = mutant.path.suffix == ".antt" or CONSTANT.search(mutant.line)
        crates = climb(mutant, below) if open_above else []

        def first_refusal():
            for crate in crates:
                said = self.refuses(crate)
                if said:
                    return crate, said
            return None, ""

        return self.with_it(mutant, first_refusal)


def chosen(number, seed, only):
    """So many mutants, of code and of definitions by turns."""
    picks = random.Random(seed)
    pools = []
    if only != "DEFINITIONS":
        pools.append([mutant for path in code_files() for mutant in mutants_of(path)])
    if only != "CODE":
        pools.append([mutant for path in definition_files() for mutant in mutants_of(path)])
    print(f"seed {seed}; there are {' and '.join(str(len(pool)) for pool in pools)} to choose from", flush=True)
    for pool in pools:
        picks.shuffle(pool)
    turns = [mutant for turn in zip(*pools) for mutant in turn][:number]
    # Those of a crate come together: a check proves again what a mutant changes alone.
    return sorted(turns, key=lambda mutant: mutant.crate)


class Tally:
    """How many mutants of each kind were tried, refused, listed as equal, and no program; and how many were accepted and are not listed."""

    def __init__(self):
        self.counts = {".rt": [0, 0, 0, 0], ".antt": [0, 0, 0, 0]}
        self.new = 0
        self.equal = {line.split(" -- ")[0] for line in EQUAL.read_text().splitlines() if not line.startswith("#")}

    def take(self, mutant, crate, said):
        """Counts a mutant that a crate refuses, or none, and prints it."""
        of_kind = self.counts[mutant.path.suffix]
        is_program = not said or NOT_PROVED.search(said)
        of_kind[0] += bool(is_program)
        if not said:
            known = mutant.key() in self.equal
            of_kind[2] += known
            self.new += not known
            outcome = "accepted, and listed as equal" if known else "ACCEPTED"
        elif is_program:
            of_kind[1] += 1
            outcome = f"refused in {crate}"
        else:
            of_kind[3] += 1
            outcome = "no program"
        first = next((line for line in said.splitlines() if "error" in line), "").strip()[:200]
        print(f"{outcome}: {mutant.place()}: {mutant.line.strip()}  ->  {mutant.changed.strip()}  [{first}]", flush=True)
        SAID.mkdir(parents=True, exist_ok=True)
        (SAID / mutant.name()).write_text(f"{mutant.key()}\n{said}")

    def show(self):
        for name, suffix in (("code", ".rt"), ("definitions", ".antt")):
            tried, refused, known, no_program = self.counts[suffix]
            print(f"{name}: {refused} of {tried} refused, {known} of the others listed as equal; {no_program} more were no program")


def main():
    number = int(sys.argv[1])
    seed = int(sys.argv[2]) if len(sys.argv) > 2 else random.SystemRandom().randrange(2**32)
    mutants = chosen(number, seed, sys.argv[3] if len(sys.argv) > 3 else "")
    below = stands_on()
    tally = Tally()
    with tempfile.TemporaryDirectory() as folder:
        copy = Copy(folder)
        left = []
        for mutant in mutants:
            said = copy.screened(mutant)
            if said:
                tally.take(mutant, mutant.crate, said)
            else:
                left.append(mutant)
        # What its own crate accepts is put to those above.
        for mutant in left:
            tally.take(mutant, *copy.judged(mutant, below))
    tally.show()
    sys.exit(1 if tally.new else 0)


if __name__ == "__main__":
    main()
