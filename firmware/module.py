"""The module that the kit hands to its clang, kept and held to what the kit made of it, and its text for any processor.

`rt` proves a crate, hands a module to the kit's clang and has it make code for x86-64. Here it is run with a clang before the
kit's own that keeps the module. Nothing of the kit is touched: a folder of links to it stands in its place. What could change
a bit of an answer ends the run: a word that lets operations be fused or reordered, or another word of x86-64."""

import re
import shutil
import subprocess
import sys
import tempfile
from pathlib import Path

ROOT = Path(__file__).resolve().parent.parent
OUT = ROOT / "target" / "firmware"

# What clang is told of every target; the kit's own words but for the processor and the -O3.
WORDS = ["--no-default-config", "-no-canonical-prefixes", "-fintegrated-cc1", "-fno-crash-diagnostics", "-Werror", "-ffunction-sections",
         "-fdata-sections", "-mllvm", "-trap-unreachable", "-mllvm", "-no-trap-after-noreturn", "-mllvm", "-disable-machine-licm",
         "-mllvm", "-disable-postra-machine-licm", "-mllvm", "-sink-common-insts=false"]
X86_64 = ["--target=x86_64-unknown-linux-gnu", "-march=x86-64", "-mllvm", "-no-x86-call-frame-opt", "-fPIC", "-O3"]

# What `rt` is told: the archive and the programs are for every x86-64.
CPU = ["--cpu", "x86-64"]

# What the kit says beside that where it makes a program.
OF_PROGRAMS = ["-fPIE", "-Xclang", "-fmerge-functions", "-mllvm", "-mergefunc-use-aliases"]

# Lines that say for which machine a module is, and words of its functions that do.
MACHINE = re.compile(r"^target (datalayout|triple) = .*\n", re.M)
OF_X86_64 = re.compile(r' "(probe-stack"="inline-asm|stack-probe-size"="\d+|target-cpu"="x86-64(-v\d)?)"')

# A function's name by its room, which not every assembler reads: base_bits::writing::put_number becomes base_bits.writing.put_number.
QUOTED = re.compile(r'@"([^"]+)"')
UNREADABLE = re.compile(r"[^\w.]+")

# Where a program begins: it sets what its system does at a closed pipe, may look at its processor, and goes on. Here it goes on at once.
BEGINS = re.compile(r"^(define i32 @main\(\).*\nstart:\n)(?:.*\n)*?(  %\w+ = call i32 @\".*\+start\"\(\)\n  ret .*\n)(?:.*\n)*?\}\n", re.M)
OF_ITS_SYSTEM = re.compile(r"^declare .*@(__x86_get_cpuid_feature_leaf|__sysv_signal|__write)\(.*\n", re.M)

# Lines that say where a module comes from, by a path that may have any words.
OF_ITS_PLACE = ("; ModuleID", "source_filename")

# What a module must not have: a word of x86-64, leave to fuse or to reorder, another float, an address as a number.
UNWANTED = re.compile(r"x86|\b(fast|contract|reassoc|nnan|ninf|nsz|arcp|afn|float|ptrtoint|inttoptr|asm)\b|fmuladd|llvm\.fma")


def run(words, **more):
    return subprocess.run([str(word) for word in words], check=True, **more)


def kit():
    """The folder of the kit."""
    return Path(shutil.which("rt")).resolve().parent.parent


def tool(name):
    return kit() / "toolchain" / "bin" / name


def link_home(copy, module):
    """Makes a folder stand for the kit: links to all of it but `rt` itself, and a clang that keeps the module it is given."""
    home = kit()
    tools = copy / "toolchain" / "bin"
    tools.mkdir(parents=True)
    (copy / "bin").mkdir()
    taken = {home / name for name in ("toolchain", "toolchain/bin", "toolchain/bin/clang", "bin", "bin/rt", "bin/rtlib.py")}
    for folder in (home, home / "toolchain", home / "toolchain" / "bin", home / "bin"):
        for entry in folder.iterdir():
            if entry not in taken:
                (copy / folder.relative_to(home) / entry.name).symlink_to(entry.resolve())
    for name in ("rt", "rtlib.py"):
        shutil.copy(home / "bin" / name, copy / "bin")
    keeping = tools / "clang"
    keeping.write_text(f"""#!/bin/sh
for word in "$@"; do case $word in *.bc) cp "$word" "{module}" ;; esac; done
exec "{tool("clang")}" "$@"
""")
    keeping.chmod(0o755)


def kept(crate, word):
    """The module that `rt` hands to clang where it builds a crate by this word; a program runs on an empty input."""
    OUT.mkdir(parents=True, exist_ok=True)
    module = OUT / f"{crate}.bc"
    module.unlink(missing_ok=True)
    # (not below the repository, where `rt` wants no links)
    with tempfile.TemporaryDirectory() as home:
        link_home(Path(home), module)
        run([f"{home}/bin/rt", word, *CPU], cwd=ROOT / "crates" / crate, stdin=subprocess.DEVNULL, stdout=subprocess.DEVNULL)
    if not module.is_file():
        sys.exit(f"{crate}: the kit hands its module to clang in another way: none was kept")
    return module


def makes(crate, module, made, *more):
    """Whether clang makes these bytes of the kept module."""
    again = OUT / f"{crate}.o"
    run([tool("clang"), *X86_64, *more, *WORDS, "-c", "-x", "ir", module, "-o", again])
    return made == again.read_bytes()


def hold_to_the_archive(crate, module):
    """The archive is what clang makes of the kept module, byte for byte."""
    archive = ROOT / "crates" / crate / "out" / f"lib{crate}.a"
    if not makes(crate, module, run([tool("llvm-ar"), "p", archive, f"{crate}.o"], stdout=subprocess.PIPE).stdout):
        sys.exit(f"{crate}: the kept module is not the archive's")


def text_of(crate, module):
    """The module as text for any processor."""
    words = [tool("clang"), "--target=x86_64-unknown-linux-gnu", "--no-default-config", "-S", "-emit-llvm", "-O0", "-Xclang",
             "-disable-llvm-passes"]
    text = run([*words, "-x", "ir", module, "-o", "-"], stdout=subprocess.PIPE, text=True).stdout
    text = OF_ITS_SYSTEM.sub("", BEGINS.sub(r"\1\2}\n", OF_X86_64.sub("", MACHINE.sub("", text))))
    text = QUOTED.sub(lambda name: "@" + UNREADABLE.sub(".", name.group(1)), text)
    hold_to_the_rules(crate, text)
    path = OUT / f"{crate}.ll"
    path.write_text(text)
    return text


def hold_to_the_rules(crate, text):
    """Each operation of the text is rounded once, as it stands, on any processor."""
    for line in text.splitlines():
        if not line.startswith(OF_ITS_PLACE) and UNWANTED.search(line):
            sys.exit(f"{crate}: the module has what it must not have: {line}")


def of_archive(crate):
    """The text of the module that the proved archive of a crate is made of."""
    module = kept(crate, "lib")
    hold_to_the_archive(crate, module)
    return text_of(crate, module)


def of_program(crate):
    """The text of the module that a proved program is made of; one that is kept already is taken while it is the program's."""
    out = ROOT / "crates" / crate / "out"
    module, code = OUT / f"{crate}.bc", out / f"{crate}.o"
    if not (module.is_file() and code.is_file() and makes(crate, module, code.read_bytes(), *OF_PROGRAMS)):
        (out / f"{crate}.stamp").unlink(missing_ok=True)
        module = kept(crate, "run")
    if not makes(crate, module, code.read_bytes(), *OF_PROGRAMS):
        sys.exit(f"{crate}: the kept module is not the program's")
    return text_of(crate, module)
