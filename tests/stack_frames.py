#!/usr/bin/env python3
"""What stack each exported call can need at most, added up from the machine code of the archive: the frames along its
longest chain of calls, with every return address, and the arguments that it takes on the stack. memcpy and memset are
the host's: of these only the return address is counted. A function that calls itself does so once for each axis at most.
A jump by a table goes to every place that the table has.
Fails where the code moves the stack pointer in a way that is not followed here. Prints a table of docs/BENCH.md."""

import re
import subprocess
import sys
from pathlib import Path

REPOSITORY = Path(__file__).resolve().parent.parent
ARCHIVE = REPOSITORY / "target/staticlib/libhullashlar.a"
HEADER = REPOSITORY / "include/hullashlar.h"
OF_THE_HOST = {"memcpy", "memset"}
MOST_AXES = 4
IN_REGISTERS = 6
WORD = 8

# A large frame is taken in steps, each of which is touched: how deep it goes in all, and the step.
PROBED = re.compile(r"sub\s+r11,(0x[0-9a-f]+)$")
STEP = re.compile(r"sub\s+rsp,0x[0-9a-f]+$")

# A jump to an address that was put on the stack.
KEPT = re.compile(r"jmp\s+QWORD PTR \[rsp\+0x[0-9a-f]+\]$")


def disassembled(archive):
    """The instructions of each function: address, text, and the name that a relocation puts there, with the place behind it."""
    options = ["objdump", "-d", "-r", "-M", "intel", "--no-show-raw-insn", archive]
    functions, current = {}, None
    for line in subprocess.run(options, capture_output=True, text=True, check=True).stdout.splitlines():
        if named := re.match(r"[0-9a-f]+ <(.*)>:$", line):
            current = functions.setdefault(named[1], [])
        elif moved := re.match(r"\s+[0-9a-f]+:\s+R_X86_64_\w+\s+(\S+)", line):
            current[-1][2] = moved[1]
        elif instruction := re.match(r"\s+([0-9a-f]+):\s+(.*)$", line):
            current.append([int(instruction[1], 16), instruction[2].strip(), None])
    return functions


def in_one_step(instructions):
    """A function's instructions with each frame that is taken in steps taken at once, and no jump back from its last step."""
    for at in range(1, len(instructions) - 3):
        probed, back = PROBED.match(instructions[at - 1][1]), instructions[at + 3]
        if probed and STEP.match(instructions[at][1]) and back[1].startswith(f"jne    {instructions[at][0]:x} "):
            instructions[at][1] = f"sub    rsp,{probed[1]}"
            back[1] = "nop"
    return instructions


def tables(archive):
    """The places that the tables of each section name: by where an entry stands, how far behind the function's start it points."""
    sections, current = {}, None
    for line in subprocess.run(["objdump", "-r", archive], capture_output=True, text=True, check=True).stdout.splitlines():
        if named := re.match(r"RELOCATION RECORDS FOR \[(\.rodata\S*)\]", line):
            current = sections.setdefault(named[1], {})
        elif line.startswith("RELOCATION"):
            current = None
        elif (entry := re.match(r"([0-9a-f]+) R_X86_64_PC32\s+\.text\S*\+0x([0-9a-f]+)$", line)) and current is not None:
            current[int(entry[1], 16)] = int(entry[2], 16)
    return sections


def table_at(relocated):
    """The section of a table whose address an instruction takes, and where in it the table begins; none where it takes no such address."""
    if place := re.match(r"(\.rodata.*?)([-+]0x[0-9a-f]+)$", relocated or ""):
        return place[1], int(place[2], 16) + 4
    return None


def places_in(taken, instructions, sections):
    """The places of one table of a function: it ends where the next begins."""
    section, begin = taken
    begins = {other for _, _, relocated in instructions if (other := table_at(relocated))}
    end = min((other for of, other in begins if of == section and other > begin), default=max(sections[section]) + 4)
    return [sections[section][at] - at + begin for at in range(begin, end, 4) if at in sections[section]]


def places_of(here, instructions, sections, name):
    """Where a jump by a table goes: to the places of the table whose address was taken before it; where the address that it goes to was
    kept on the stack since then, to those of every table of the function."""
    for _, text, relocated in reversed(instructions[max(0, here - 8) : here]):
        if (taken := table_at(relocated)) and text.startswith("lea"):
            return places_in(taken, instructions, sections)
    takings = {taken for _, text, relocated in instructions if text.startswith("lea") and (taken := table_at(relocated))}
    places = [place for taken in takings for place in places_in(taken, instructions, sections)]
    if places and KEPT.match(instructions[here][1]):
        return places
    sys.exit(f"a jump that is not followed, in {name}: {instructions[here][1]}")


def plain(relocated):
    """The name that a relocation puts at a place, alone."""
    return relocated and re.sub(r"[-+]0x[0-9a-f]+$", "", relocated)


def moved(text):
    """By how much an instruction lowers the stack pointer."""
    if text.startswith(("push ", "pop ")):
        return WORD if text.startswith("push") else -WORD
    if change := re.match(r"(sub|add)\s+rsp,(0x[0-9a-f]+)$", text):
        by = int(change[2], 16)
        by -= (by >> 63) << 64
        return by if change[1] == "sub" else -by
    if re.match(r"\w+\s+rsp,", text) and not text.startswith(("cmp", "test")):
        sys.exit(f"the stack pointer is moved by: {text}")
    return 0


def jump(text, name):
    """Where a jump goes: an address of the same function, or the name of another."""
    to = re.match(r"j\w+\s+([0-9a-f]+) <([^+>]*)(\+0x[0-9a-f]+)?>$", text)
    if not to:
        sys.exit(f"a jump that is not followed, in {name}: {text}")
    return int(to[1], 16) if to[2] == name else to[2]


def frame(name, instructions, sections):
    """How deep a function goes by itself, and how deep it stands at each of its calls."""
    index = {address: number for number, (address, _, _) in enumerate(instructions)}
    depth, work, calls = {0: 0}, [0], set()
    while work:
        here = work.pop()
        _, text, relocated = instructions[here]
        word = text.split()[0]
        behind = [] if word in ("ret", "jmp", "ud2") else [here + 1]
        if word == "call":
            calls.add((depth[here], plain(relocated) or re.search(r"<(.*)>$", text)[1]))
        elif re.match(r"jmp\s+r\w+$", text) or KEPT.match(text):
            behind = [index[place] for place in places_of(here, instructions, sections, name)]
        elif word.startswith("j"):
            to = plain(relocated) or jump(text, name)
            if isinstance(to, int):
                behind.append(index[to])
            else:
                calls.add((depth[here] - WORD, to))
        for number in behind:
            if number not in depth:
                depth[number] = depth[here] + moved(text)
                work.append(number)
            elif depth[number] != depth[here] + moved(text):
                sys.exit(f"two depths at one place of {name}")
    return max(depth.values()), calls


def deepest(name, frames, again=MOST_AXES):
    """How deep a function goes below its return address, with all that it calls."""
    own, calls = frames[name]
    depths = [own]
    for depth, callee in calls:
        callee = callee.removeprefix(".text.")
        if callee in OF_THE_HOST:
            depths.append(depth + WORD)
        elif callee != name:
            depths.append(depth + WORD + deepest(callee, frames))
        elif again > 1:
            depths.append(depth + WORD + deepest(name, frames, again - 1))
    return max(depths)


def on_the_stack(parameters):
    """The bytes of the arguments that do not go in registers; a double goes in one of its own."""
    whole = [given for given in parameters.split(",") if not re.match(r"\s*double \w", given)]
    return WORD * max(0, len(whole) - IN_REGISTERS)


def main():
    archive = Path(sys.argv[1]) if len(sys.argv) > 1 else ARCHIVE
    sections = tables(archive)
    frames = {name: frame(name, in_one_step(code), sections) for name, code in disassembled(archive).items() if code}
    print("| Exported call | Stack bytes at most |\n|---|--:|")
    for name, parameters in re.findall(r"^\w+ (hullashlar_\w+)\(([^)]*)\);", HEADER.read_text(), re.M):
        print(f"| `{name}` | {WORD + deepest(name, frames) + on_the_stack(parameters):,} |")


main()
