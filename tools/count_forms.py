#!/usr/bin/env python3
"""Counts the places of docs/DESIGN-PASS.md in crates/*/src: one list for each point that can be found by its text.

    python3 tools/count_forms.py            the counts
    python3 tools/count_forms.py --places   each place besides
"""
import re
import sys
from collections import defaultdict
from pathlib import Path

ROOT = Path(__file__).resolve().parent.parent
HEAD = re.compile(r"^( *)(pub )?fn (\w+)")


def functions(path):
    """Name, signature with clauses, and body of each function of a file, with the line at which it begins."""
    lines = path.read_text().split("\n")
    at = 0
    while at < len(lines):
        head = HEAD.match(lines[at])
        if not head:
            at += 1
            continue
        indent, name, begin = head[1], head[3], at
        while lines[at] != indent + "{" and not (at == begin and lines[at].endswith("{")) and not lines[at].endswith(";"):
            at += 1
        opened = at
        while lines[opened].endswith("{") and lines[at] != indent + "}":
            at += 1
        yield name, "\n".join(lines[begin:opened + 1]), "\n".join(lines[opened + 1:at]), begin + 1
        at += 1


def without_comments(text):
    return "\n".join(line for line in text.split("\n") if not line.lstrip().startswith("//"))


SHAPE_WORDS = re.compile(r"\b(fn|let|mut|if|else|while|for|in|match|return|loop|pub|as|true|false|self)\b|[^\w\s]")


def shape(body):
    """A body without its names, types and numbers: what twins share."""
    return re.sub(r"\s+", " ", re.sub(r"\b(?!(?:let|mut|if|else|while|for|in|match|return|loop|as)\b)\w+\b", "_", without_comments(body))).strip()


def count():
    found = defaultdict(list)
    shapes = defaultdict(list)
    groups = defaultdict(list)
    clauses = defaultdict(list)
    for path in sorted(ROOT.glob("crates/*/src/**/*.rt")):
        where = path.relative_to(ROOT)
        text = path.read_text()
        crate = where.parts[1]
        export = crate.startswith("c_") or crate in ("hullashlar", "hullashlar_c", "hullashlar_doubles")
        for number, line in enumerate(text.split("\n"), 1):
            if re.match(r"\s*(?:let \w+ = )?(?:'\w+: )?(?:while\b|loop \{)", line):
                found["3 loops by while or loop"].append(f"{where}:{number}: {line.strip()}")
            if re.match(r"\s*(pub )?(refusal|found|made|refused|stopped|failed): (usize|bool),", line):
                found["1 a refusal's number or a flag in a struct, values beside it"].append(f"{where}:{number}: {line.strip()}")
        for enum in re.finditer(r"enum (\w+) \{\n((?:    .*\n)*?)\}", text):
            variants = [v.strip() for v in enum[2].split("\n") if v.strip() and not v.strip().startswith("//")]
            if len(variants) == 2 and sum("(" in v for v in variants) == 1:
                found["1 own enums of the shape of Option or Result"].append(f"{where}: {enum[1]}")
        for name, head, body, line in functions(path):
            code = without_comments(body)
            if re.search(r"-> usize\s*(\n|\{|$)", head.split("ensures")[0].split("requires")[0]) and re.search(r"refusal|fault", name + code):
                kind = "1 functions of exports for C that give a refusal's number" if export else "1 functions that give a refusal's number"
                found[kind].append(f"{where}:{line}: {name}")
            if len(code.split("\n")) >= 4:
                shapes[shape(code)].append(f"{where}:{line}: {name}")
            for group in ("axes: usize, all: [Axis; 4]", "axes: usize, points: &[usize]", "kinds: &[u8], values: &[f64]", "text: &mut [u8], at: usize",
                          "w: &mut [f64], x: &[f64]", "values: &mut [f64], labels: &mut [usize]"):
                if group in re.sub(r"\s+", " ", head):
                    groups[group].append(f"{where}:{line}: {name}")
            for clause in re.findall(r"requires (?:\w+ )?\{(.*?)\}\n", head, re.S):
                for part in re.split(r"\s×\s", re.sub(r"\s+", " ", clause)):
                    clauses[part.strip(" ()")].append(f"{where}:{line}: {name}")
            if re.search(r"match (way|quality|direction|kind|call)\b", code):
                found["7 switches on which step to run"].append(f"{where}:{line}: {name}")
            if re.search(r"\bif (.*) \{ (true|false) \} else|else \{ (true|false) \}", code) or re.search(r"=> true,\n.*=> false,|=> false,\n.*=> true,", code):
                found["4 tests spelt out by true and false"].append(f"{where}:{line}: {name}")
    for same in shapes.values():
        if len(same) > 1:
            found["2 functions whose bodies have one shape"] += same
    for group, places in groups.items():
        if len(places) >= 3:
            found[f"5 parameters that travel together: {group}"] = places
    for clause, places in clauses.items():
        if len(places) >= 3:
            found["5 facts in the requires of three functions or more"].append(f"{len(places)} times: {clause}")
    return found


def main():
    found = count()
    for name in sorted(found):
        print(f"{len(found[name]):5}  {name}")
        if "--places" in sys.argv:
            for place in found[name]:
                print(f"           {place}")


main()
