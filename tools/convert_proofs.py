#!/usr/bin/env python3
"""Turns each proofs/F/Proof.antt of a crate, a walk by `tie.spec`, into Invariants.antt and Answers.antt.

usage: tools/convert_proofs.py CRATE..        at the top of the repository; the crates below each CRATE must be proved

It asks `rt check --generated DIR --old-names` how today's goals and places are called. What it could not match is listed on lines that
begin 'look:'. The check decides.
"""
import json
import os
import re
import subprocess
import sys
import tempfile

PLACE = re.compile(r"⟪(\d+)⟫")
META = {"args", "requires", "ranges", "well_formed", "type_inv", "lifetimes", "invariant_of", "row", "utf8"}
OLD_FIELDS = {"inv": "invariant", "taken": "true", "left": "false", "pre": "requires"}
NAME = r"[^\s(){}.;,@\"«»]+"


def plain(name):
    return name.replace("_", "-").replace("overflow-", "").replace("Need-", "").replace("slice-bounds-", "part-").replace("nonzero-", "")


def blocks(text):
    """The declarations of a file, each with the comment above it."""
    out, now = [], []
    for line in text.split("\n"):
        starts = line and not line[0].isspace() and not line.startswith(("unfolding", "--", "}", ")", "]"))
        head = re.match(rf"(?:(?:pub|abbrev|unfoldable) )*({NAME}) ", line)
        continues = starts and now and head and any(re.match(rf"(?:(?:pub|abbrev|unfoldable) )*{re.escape(head[1])} :", it) for it in now)
        if (starts and not continues and any(not it.startswith("--") for it in now)) or (line.startswith("--") and any(not it.startswith("--") for it in now)):
            out.append("\n".join(now).rstrip())
            now = []
        if line.strip() or now:
            now.append(line)
    if any(it.strip() for it in now):
        out.append("\n".join(now).rstrip())
    return [it for it in out if it.strip()]


def split_arguments(text):
    """The arguments of an application, cut at depth nought."""
    out, depth, now = [], 0, ""
    for ch in text:
        if ch in "([{":
            depth += 1
        if ch in ")]}":
            depth -= 1
            if depth < 0:
                break
        if ch.isspace() and depth == 0:
            if now:
                out.append(now)
            now = ""
        else:
            now += ch
    return out + ([now] if now else [])


def first_argument(text):
    """The first argument of an application, with what is projected from it."""
    depth = 0
    for at, ch in enumerate(text):
        if ch in "([{":
            depth += 1
        if ch in ")]}":
            depth -= 1
            if depth < 0:
                return text[:at]
        if depth == 0 and (ch.isspace() or ch in ",;"):
            return text[:at]
    return text


class Function:
    def __init__(self, names, said):
        self.names, self.said = names, said
        self.places = names["places"]
        self.index = {plain(it[0]): at for at, it in enumerate(self.places)}
        self.new_places = names["places_by_name"]
        self.needs = {plain(old): new for old, new in names["needs"]}
        self.order = [new for _, new in names["needs"]]
        self.asked_at = {new: self.index.get(plain(at[0]), 0) for (_, new), at in zip(names["needs"], names["asked_at"])}
        self.arguments = [(a.split(".")[-1].strip(), b.split(".")[-1].strip()) for a, b in names["args"] if a.startswith(".args")]
        self.turns, self.lemmas = {}, {}

    def parent(self, at):
        above = self.places[at][1]
        return self.index.get(plain(above), None) if above else None

    def distance(self, at, to):
        steps = 0
        while at is not None and at != to:
            at, steps = self.parent(at), steps + 1
        return steps if at is not None else None

    def step(self, at, name):
        """The new name of a step, looked for at its place, above it, and anywhere."""
        here = at
        while here is not None:
            if plain(self.places[here][2][0]) == plain(name):
                return self.places[here][2][1]
            here = self.parent(here)
        found = {it[2][1] for it in self.places if plain(it[2][0]) == plain(name)}
        if len(found) == 1:
            return found.pop()
        self.said.append(f"step {name}: {sorted(found)}")
        return name

    def arm(self, at, path):
        """A field of an arm, for the old path of a told value."""
        here = at
        while here is not None:
            arm = self.names["arms"][here] if here < len(self.names["arms"]) else None
            if arm:
                for new, step, old in arm[2]:
                    if old and plain(step) == plain(path[0]) and path[1 : 1 + len(old)] == old:
                        return [arm[0], new] + path[1 + len(old) :]
            here = self.parent(here)
        return None

    def path(self, head, at, fields):
        if fields[0] in OLD_FIELDS and OLD_FIELDS[fields[0]] in META:
            fields = [OLD_FIELDS[fields[0]]] + fields[1:]
        if fields[0] in META:
            if fields[0] in ("args", "ranges", "type_inv") and len(fields) > 1:
                fields = fields[:1] + [dict(self.arguments).get(fields[1], fields[1])] + fields[2:]
            return ".".join([head] + fields)
        told = self.arm(at, fields)
        if told:
            return ".".join([head] + told)
        of_a_test = re.match(r"if\d|.*test$", fields[0])
        rest = [OLD_FIELDS.get(it, it) if of_a_test or it == "inv" else it for it in fields[1:2]] + fields[2:]
        return ".".join([head, self.step(at, fields[0])] + rest)

    def unfolded(self, text, at, goal):
        """The first call of a lemma over a place that cannot be handed on, opened."""
        for name, (place, head, abbreviates, parameters, body) in self.lemmas.items():
            for m in re.finditer(rf"(?<![\w.'-]){re.escape(name)} ⟪(\d+)⟫", text):
                if not abbreviates and (goal or int(m[1]) == at and place == at):
                    continue
                rest, given = text[m.end() :], []
                while len(given) < len(parameters) - 1:
                    found = re.match(r"\s+(?=[^\s=→∙×≡≤<+*⊖,;)}\]-])", rest)
                    if not found or re.match(r"\s+(in|let|∙|≡|then)\b", rest):
                        break
                    taken = first_argument(rest[found.end() :])
                    given.append(taken)
                    rest = rest[found.end() + len(taken) :]
                opened = re.sub(rf"(?<![\w.'-]){re.escape(parameters[0])}(?![\w'₀-])", f"⟪{m[1]}⟫", body)
                for parameter, value in zip(parameters[1:], given):
                    opened = re.sub(rf"(?<![\w.'-]){re.escape(parameter)}(?![\w'₀-])", lambda _: value, opened)
                left = parameters[1 + len(given) :]
                opened = f"λ {' '.join(left)}. {opened}" if left else opened
                return text[: m.start()] + f"({opened.strip()})" + rest
        return text

    def resolve(self, text, head, at, goal=None):
        """A body or a statement over one place, with each path flat."""
        text = re.sub(rf"(?<![\w.'-]){re.escape(head)}(?![\w'₀-])", f"⟪{at}⟫", text)
        while True:
            before = text
            text = re.sub(r"⟪(\d+)⟫\.before\b", lambda m: f"⟪{self.parent(int(m[1])) or 0}⟫", text)
            for turn, to in self.turns.items():
                text = re.sub(rf"\({re.escape(turn)} ⟪\d+⟫\)|(?<![\w.'-]){re.escape(turn)} ⟪\d+⟫", f"⟪{to}⟫", text)
            text = re.sub(r"\((⟪\d+⟫)\)", r"\1", text)
            found = re.search(r"let (\w[\w']*)\s*=\s*⟪(\d+)⟫ in\b\s*", text)
            if found:
                rest = re.sub(rf"(?<![\w.'-]){re.escape(found[1])}(?![\w'₀-])", f"⟪{found[2]}⟫", text[found.end() :])
                text = text[: found.start()] + rest
            if text == before:
                text = self.unfolded(text, at, goal)
            if text == before:
                break
        text = re.sub(r"\.inv(?![\w-])", ".invariant", text)
        text = re.sub(r"\.pre(?![\w-])", ".requires", text)
        text = re.sub(r"\.type-inv(?![\w-])", ".type_inv", text)
        text = re.sub(r"\.taken(?![\w-])", ".true", text)
        text = re.sub(
            rf"⟪(\d+)⟫((?:\.{NAME})+)", lambda m: self.path(head, int(m[1]), m[2][1:].split(".")), text
        )

        for name, (place, *_) in self.lemmas.items():
            text = re.sub(rf"(?<![\w.'-]){re.escape(name)} ⟪\d+⟫", f"{name} ⟪{place}⟫", text)

        def bare(m):
            if goal:
                return f"(goal.at.{goal} {head}).{self.new_places[int(m[1])]}"
            steps = self.distance(at, int(m[1]))
            if steps != 0:
                self.said.append(f"a lemma over {self.places[at][0]} is given {self.places[int(m[1])][0]}")
            return head

        opening = ""
        for at_place in sorted(set(PLACE.findall(text))) if goal else []:
            if text.count(f"⟪{at_place}⟫") > 1:
                name = "at_" + re.sub(r"\W+", "_", self.new_places[int(at_place)]).lower()
                opening += f"let {name} = {bare(re.match(PLACE, f'⟪{at_place}⟫'))} in\n    "
                text = text.replace(f"⟪{at_place}⟫", name)
        return opening + PLACE.sub(bare, text).strip() if opening else PLACE.sub(bare, text)


class Proof:
    def __init__(self, path, text, names):
        self.path, self.said = path, []
        self.function = Function(names, self.said)
        self.module = re.search(r"use (Rattle\.\S+)\.(?:Statement|Tie)\b", text)[1]
        self.blocks = blocks(text)
        self.comment, self.uses, self.invariants, self.helpers, self.answers = "", [], [], [], {}
        self.renamed, self.shown = {}, set()

    def run(self):
        rest = []
        for block in self.blocks:
            lines = block.split("\n")
            code = [it for it in lines if not it.startswith("--")]
            if not code:
                self.comment += ("\n" if self.comment else "") + block
            elif code[0].startswith("use "):
                if lines[0].startswith("--") and not self.uses:
                    self.comment = "\n".join(it for it in lines if it.startswith("--"))
                self.uses += [it for it in re.findall(r"(?ms)^use .*?(?=^use |\Z)", "\n".join(code))]
            else:
                rest.append(block)
        goals, spec = [], None
        for block in rest:
            code = "\n".join(it for it in block.split("\n") if not it.startswith("--"))
            sort = re.search(rf"^(?:(?:pub|abbrev) )*({NAME}) :\s*(.*)", code, re.S)
            if "tie.close" in code:
                spec = code
            elif re.match(r"abbrev (pub )?(invariant|decreases)-", code):
                self.invariant(block)
            elif sort and re.match(r"tie\.Need-", sort[2]):
                goals.append((sort[1], block))
            elif sort and re.match(rf"tie\.[^→\n]*→ tie\.", sort[2]) and code.startswith("abbrev"):
                to = re.search(r"→ tie\.(\S+)", sort[2])[1]
                self.function.turns[sort[1]] = self.place(to)
            else:
                self.helpers.append((sort[1] if sort else "", block))
        self.lemmas()
        self.named = {name for name, _ in goals}
        for name, block in goals:
            self.goal(name, block)
        if spec:
            self.spec(spec)
        self.write()

    def lemmas(self):
        """Notes which helpers speak of a place; an abbreviation over one is opened everywhere."""
        kept = []
        for name, block in self.helpers:
            code = "\n".join(it for it in block.split("\n") if not it.startswith(("--", "unfolding")))
            bound = re.match(rf"(?:(?:pub|abbrev) )*{re.escape(name)} : (?:\(({NAME}) : )?tie\.({NAME})", code) if name else None
            clause = re.search(rf"(?m)^{re.escape(name)} ((?:{NAME} )*)=\s", code) if bound else None
            if clause and clause[1].split():
                abbreviates = code.startswith("abbrev")
                parameters = clause[1].split()
                self.function.lemmas[name] = (self.place(bound[2]), parameters[0], abbreviates, parameters, code[clause.end() :])
                if abbreviates:
                    continue
            kept.append((name, block))
        self.helpers = kept

    def place(self, name):
        at = self.function.index.get(plain(name))
        if at is None:
            self.said.append(f"no place {name}")
            return 0
        return at

    def invariant(self, block):
        found = re.match(rf"((?:--[^\n]*\n)*)abbrev (?:pub )?(invariant|decreases)-({NAME}) : [^\n]*\n\2-\3 ([^=]*?)=\s(.*)", block, re.S)
        if not found:
            self.said.append("an invariant that is not read: " + block[:60])
            return
        comment, kind, loop, given, body = found.groups()
        given = given.split()
        loops = self.function.names["loops"]
        at = next((k for k, it in enumerate(loops) if plain(it[0][0]) == plain(loop)), None)
        if at is None:
            self.said.append(f"no loop {loop}")
            return
        (_, new), variables = loops[at]
        changed = self.function.names["changed"][at]
        means = ["l.initial." + v if c else "l." + v for v, c in zip(variables, changed)] + ["l." + v for v, c in zip(variables, changed) if c]
        if len(means) != len(given):
            self.said.append(f"{kind}-{loop}: {len(given)} arguments, {len(means)} variables: {variables} {changed}")
        table = dict(zip(given, means))

        def word(m):
            if m[0] not in table:
                return m[0]
            label = re.match(r" = ", body[m.end() :]) and re.search(r"[{;]\s*$", body[: m.start()])
            return m[0] if label else table[m[0]]

        body = re.sub(r"(?<![\w.'₀-])[A-Za-z_][\w'₀]*(?![\w'₀-])", word, body).strip()
        name = f"{kind}-{new}"
        self.invariants.append(f"{comment}abbrev pub {name} : goal.{name}\n{name} l = {body}")

    def goal(self, name, block):
        found = re.match(rf"((?:--[^\n]*\n)*){re.escape(name)} : tie\.Need-(\S+)[^\n]*\n((?:unfolding[^\n]*\n)*){re.escape(name)} ([^=]*?)=\s(.*)", block, re.S)
        if not found:
            self.said.append("a goal that is not read: " + block[:80].replace("\n", " | "))
            return
        comment, need, unfolding, given, body = found.groups()
        same = [new for new in self.function.order if plain(new) == plain(need)]
        new = self.function.needs.get(plain(need), same[0] if len(same) == 1 else None)
        if new is None:
            self.said.append(f"no goal {need}: {body[:200]!r}")
            return
        self.renamed[name] = new
        self.answers[new] = (comment, unfolding, self.body(new, given.split(), body))

    def body(self, new, given, body):
        head = given[0] if given else "c"
        body = self.function.resolve(body, head, self.function.asked_at[new], new)
        if head != "c":
            body = re.sub(rf"(?<![\w.'-]){re.escape(head)}(?=[.)])", "c", body)
        return re.sub(r"ap not \(sym (c\.[^\s()]+)\) ∙ (c\.(?:if-not|while-not)[^\s(),]+)", r"ap not (sym \1 ∙ \2)", body)

    def spec(self, code):
        inside = re.search(r"\(?tie\.spec\b(.*)", code[code.index("tie.close") :], re.S)[1]
        asked = split_arguments(inside)
        while asked and re.match(r"(invariant|decreases)-|.*[Ii]nvariant|.*decreases", asked[0]):
            asked.pop(0)
        inline = [(k, it) for k, it in enumerate(asked) if it.startswith("(")]
        odd = [(k, it) for k, it in inline if not re.fullmatch(r"\(λ [^.]*\.\s+search rules\)", it)]
        order = self.function.order
        if len(asked) != len(order):
            if odd:
                self.said.append(f"{len(asked)} answers for {len(order)} goals; inline: " + "; ".join(it for _, it in odd))
            return
        for k, it in enumerate(asked):
            if it in self.renamed and self.renamed[it] != order[k]:
                self.said.append(f"{it} is {self.renamed[it]} by name and {order[k]} by place")
        for k, it in enumerate(asked):
            if it in self.function.lemmas:
                self.answers.setdefault(order[k], ("", "", self.body(order[k], ["c"], f"{it} c")))
        for k, it in odd:
            found = re.fullmatch(r"\(λ ([^.]*?)\.\s+(.*)\)", it, re.S)
            if not found:
                self.said.append(f"inline for {order[k]}: {it}")
                continue
            self.answers.setdefault(order[k], ("", "", self.body(order[k], found[1].split(), found[2])))

    def helper(self, block):
        found = re.search(rf"\(({NAME}) : tie\.(\S+?)((?: invariant-\S+?| decreases-\S+?)*)\)", block)
        if not found:
            return block
        at = self.place(found[2])
        name = self.function.new_places[at]
        block = block.replace(found[0], f"({found[1]} : {name})")
        self.shown.add(name)
        first = re.search(rf"(?m)^(?:(?:pub|abbrev) )*({NAME}) :", block)
        head = found[1]
        clause = re.search(rf"(?m)^{re.escape(first[1])} ((?:{NAME} )*)=", block)
        if clause and head not in clause[1].split() and len(clause[1].split()) == 1:
            was = clause[1].split()[0]
            start = clause.start()
            block = block[:start] + re.sub(rf"(?<![\w.'-]){re.escape(was)}(?![\w'₀-])", head, block[start:])
        statement, clause_at = block, re.search(rf"(?m)^{re.escape(first[1])} ", block[first.end() :])
        cut = first.end() + clause_at.start() if clause_at else len(block)
        bound = block[:cut].split(f"({head} : {name})")
        top = bound[0] + f"({head} : {name})" + self.function.resolve(bound[1], head, at)
        below = block[cut:]
        eq = re.search(r"=\s", below)
        below = below[: eq.end()] + self.function.resolve(below[eq.end() :], head, at) if eq else below
        return top + below

    def write(self):
        folder = os.path.dirname(self.path)
        uses = [it.rstrip() for it in self.uses if not re.search(r"\.(Statement|Tie)\b", it)]
        helpers = [(name, self.helper(block)) for name, block in self.helpers]
        invariant_text = "\n".join(self.invariants)
        below = [it for it in helpers if it[0] and re.search(rf"(?<![\w.'-]){re.escape(it[0])}(?![\w'-])", invariant_text)]
        above = [it for it in helpers if it not in below]
        if self.invariants:
            shared = [re.sub(rf"(?m)^(abbrev )?(?=\S+ :)", lambda m: (m[1] or "") + "pub ", block, count=1) for _, block in below]
            text = "\n".join(([self.comment] if self.comment else []) + uses + [f"use {self.module}.Given as goal"])
            text += "\n\n" + "\n\n".join(shared + self.invariants) + "\n"
            put(os.path.join(folder, "Invariants.antt"), text)
        self.answers = {it: how for it, how in self.answers.items() if how[1] or how[2].strip() != "search rules"}
        if self.answers or above:
            lines = [] if self.invariants else [self.comment] if self.comment else []
            lines += uses
            if below:
                lines.append(f"use {self.module}.Invariants.{{{', '.join(name for name, _ in below)}}}")
            parts = [block for _, block in above]
            for new in sorted(self.answers, key=self.function.order.index):
                comment, unfolding, body = self.answers[new]
                body = body.strip()
                glue = "\n    " if "\n" in body and not body.startswith(("\n", "record", "(")) else " "
                parts.append(f"{comment}pub {new} : goal.{new}\n{unfolding}{new} c ={glue}{body}".rstrip())
            lines.append(f"use {self.module}.Goals as goal")
            if self.shown:
                lines.append(f"use {self.module}.Goals.{{{', '.join(sorted(self.shown))}}}")
            text = "\n".join(lines) + "\n\n" + "\n\n".join(parts) + "\n"
            for old, new in self.renamed.items():
                text = re.sub(rf"(?<![\w.'-]){re.escape(old)} (?=c\b)(?!c =)", f"{new} ", text) if old != new else text
            put(os.path.join(folder, "Answers.antt"), text)
        os.remove(self.path)


def put(path, text):
    with open(path, "w", encoding="utf-8") as f:
        f.write(text)


def names_of(crate):
    with tempfile.TemporaryDirectory() as to:
        where = os.path.join("crates", crate)
        said = subprocess.run(["rt", "check", "--generated", to, "--old-names"], cwd=where, capture_output=True, text=True)
        path = os.path.join(to, "names.json")
        if not os.path.exists(path):
            sys.exit(f"{crate}: {(said.stdout + said.stderr)[-400:]}")
        with open(path, encoding="utf-8") as f:
            return json.load(f)


def main(crates):
    for crate in crates:
        names = names_of(crate)
        top = os.path.join("crates", crate, "proofs")
        for folder, below, files in os.walk(top):
            below.sort()
            if "Proof.antt" not in files:
                continue
            path = os.path.join(folder, "Proof.antt")
            key = f"Rattle-{crate}-proofs." + os.path.relpath(folder, top).replace(os.sep, ".") + ".Lts"
            with open(path, encoding="utf-8") as f:
                text = f.read()
            if key not in names or "tie.spec" not in text:
                print(f"look: {path}: left as it is")
                continue
            proof = Proof(path, text, names[key])
            proof.run()
            for it in proof.said:
                print(f"look: {path}: {it}")


if __name__ == "__main__":
    main(sys.argv[1:])
