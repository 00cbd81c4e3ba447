#!/usr/bin/env python3
"""Spells the repository's own names of antt in snake case, as `knots-refused` to `knots_refused`: definitions, lemmas, fields, parameters
and local names, in specs/, proofs/, clauses, must-fail edits of specs/ and the code spans of comments and documents.

usage: tools/snake_case_names.py        at the top of the repository, once, after the toolchain's port.py

What stays: names that the file imports from the toolchain, names that the toolchain alone declares, names that Rattle makes of goals and
places, Rust's own code, and prose. A new name that meets another one of its file is listed on a line that begins 'meets:'.
"""
import os
import re
import subprocess
import sys

# The toolchain's libraries, beside its first guide.
KIT = os.path.join(os.path.dirname(subprocess.run(["rt", "doc"], capture_output=True, text=True).stdout.strip()), "rattle")
TOKEN = re.compile(r'[^\s(){}.;,@"«»]+')
COMMENT = re.compile(r'(?<![^\s(){}.;,@"«»])--[^\n]*|//[^\n]*|\{-.*?-\}', re.S)
SPAN = re.compile(r"`[^`\n]+`")
DECLARED = re.compile(
    r"(?m)^ *(?:(?:pub|abbrev|unfoldable|opaque|data|record|ruleset|syntax) )*([^\s(){}.;,@\"«»:]+)(?: \{[^{}\n]*\})* :(?= |$)"
)
KINDS = re.compile(r"(?m)^ *(?:(?:pub|abbrev|unfoldable|opaque) )*(?:record|data|abbrev|ruleset) (?:pub )?([^\s(){}.;,@\"«»:]+)")
IMPORT = re.compile(r"\buse ([^\s;{]+?)\.\{([^}]*)\}")
MADE = re.compile(r"(Need|After|At|Before|In|Lts|Asked|Given)-|returns-\d+$|(invariant|decreases)-loop|type-inv$")
CLAUSE = re.compile(r"(?:requires\*?|ensures\*?|ghost [^{;\n]*)\s*(?:\w+ )?\{|ghost use [^;]*;")


def files(top, endings):
    for folder, below, names in os.walk(top):
        below[:] = sorted(it for it in below if it not in ("out", ".git", "target"))
        for name in sorted(names):
            if name.endswith(endings):
                yield os.path.join(folder, name)


def read(path):
    with open(path, encoding="utf-8") as f:
        return f.read()


def declared_in(text):
    code = COMMENT.sub(" ", text)
    return set(DECLARED.findall(code)) | set(KINDS.findall(code))


def has_dash(word):
    return re.search(r"[^\W\d_]", word) and re.search(r"\w['’]*-\w|\w-$", word) and "◌" not in word


def snake(word):
    return word.replace("-", "_")


class Names:
    def __init__(self, root):
        self.root = root
        self.crates = set(os.listdir(os.path.join(root, "crates")))
        self.kit = set()
        for path in files(KIT, (".antt",)):
            self.kit |= declared_in(read(path))
        self.own = set()
        for path in files(os.path.join(root, "crates"), (".antt",)):
            self.own |= declared_in(read(path))
        self.turned = {}

    def lent(self, text):
        """The names that a file imports from the toolchain."""
        names = set()
        for path, items in IMPORT.findall(text):
            steps = path.split(".")
            if not (steps[0] == "Rattle" and len(steps) > 1 and steps[1] in self.crates):
                names.update(TOKEN.findall(items))
        return names

    def turn_word(self, word, lent):
        if not has_dash(word) or word in lent or MADE.match(word) or (word in self.kit and word not in self.own):
            return word
        self.turned[word] = snake(word)
        return snake(word)

    def turn_code(self, text, lent):
        return TOKEN.sub(lambda m: self.turn_word(m[0], lent), text)

    def turn_span(self, text, lent):
        """A code span of prose turns only the names that are declared here, so that a Rust name, a command or a path stays."""

        def one(m):
            whole = m[0]
            if re.search(r"\.(py|md|txt|sh|c|h|rs|edit)\b|/|--|make |rt ", whole):
                return whole
            return "`" + TOKEN.sub(lambda w: self.turn_word(w[0], lent) if w[0] in self.own else w[0], whole[1:-1]) + "`"

        return SPAN.sub(one, text)

    def turn_antt(self, text):
        lent, parts, at = self.lent(text), [], 0
        for m in COMMENT.finditer(text):
            if m[0].startswith("//"):
                continue
            parts += [self.turn_code(text[at : m.start()], lent), self.turn_span(m[0], lent)]
            at = m.end()
        return "".join(parts) + self.turn_code(text[at:], lent)

    def turn_rt(self, text):
        lent, parts, at = self.lent(text), [], 0
        pattern = re.compile(f"(?P<comment>//[^\n]*)|(?P<clause>{CLAUSE.pattern})")
        for m in iter(lambda: pattern.search(text, at), None):
            parts.append(text[at : m.start()])
            if m["comment"]:
                parts.append(self.turn_span(m[0], lent))
                at = m.end()
                continue
            end = m.end()
            if m[0].endswith("{"):
                depth = 1
                while depth:
                    depth += {"{": 1, "}": -1}.get(text[end], 0)
                    end += 1
            parts.append(self.turn_code(text[m.start() : end], lent))
            at = end
        return "".join(parts) + text[at:]

    def turn_edit(self, text):
        out, antt = [], False
        for line in text.split("\n"):
            head, colon, rest = line.partition(":")
            if head == "file":
                antt = rest.strip().endswith(".antt")
            if head in ("old", "new") and antt:
                line = head + ":" + self.turn_code(rest, set())
            elif head in ("old", "new") and re.search(r"\b(ensures|requires|ghost)\b", rest):
                line = self.turn_rt(line)
            elif line.startswith("#"):
                line = self.turn_span(line, set())
            out.append(line)
        return "\n".join(out)

    def meets(self, path, before, after):
        code = COMMENT.sub(" ", before)
        words = {it.rstrip(".") for it in TOKEN.findall(code)}
        for word in sorted(words):
            if has_dash(word) and snake(word) in words and word in self.turned and snake(word) not in ("_",):
                print(f"meets: {os.path.relpath(path, self.root)}: {word} and {snake(word)}")


def main():
    if sys.argv[1:]:
        print(__doc__)
        return 2
    root = os.getcwd()
    names = Names(root)
    turns = [(".antt", names.turn_antt), (".rt", names.turn_rt), (".edit", names.turn_edit), (".md", lambda t: names.turn_span(t, set()))]
    for ending, turn in turns:
        for path in files(root, (ending,)):
            before = read(path)
            after = turn(before)
            if ending in (".antt", ".rt"):
                names.meets(path, before, after)
            if after != before:
                with open(path, "w", encoding="utf-8") as f:
                    f.write(after)
    print(f"{len(names.turned)} names")
    return 0


if __name__ == "__main__":
    sys.exit(main())
