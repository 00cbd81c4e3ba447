#!/usr/bin/env python3
"""Makes archives for other processors than x86-64 of the module that the proved archive is made of: make_archives.py TARGET...,
and without a target all of them. docs/FIRMWARE.md says what they are.

    target/firmware/TARGET/libhullashlar.a             for speed
    target/firmware/TARGET/size/libhullashlar.a        for size
    target/firmware/TARGET/plain/[size/]libhullashlar.a  the same with the compiler's own doubles, where the processor has none

Each target's code is written as text, looked through and then assembled: what is looked through is what is in the archive. A
fused instruction in it ends the run."""

import re
import shutil
import subprocess
import sys
from pathlib import Path

sys.path.insert(0, str(Path(__file__).resolve().parent))
from module import OUT, ROOT, WORDS, of_archive, run, tool  # noqa: E402

# The crate of the exported calls, and the archive that is made of it.
CRATE = "hullashlar_c"
ARCHIVE = "libhullashlar.a"

# What clang is told of each target.
TARGETS = {
    "cortex-m0plus": ["--target=thumbv6m-none-eabi", "-mcpu=cortex-m0plus", "-mfloat-abi=soft"],
    "cortex-m4f": ["--target=thumbv7em-none-eabihf", "-mcpu=cortex-m4", "-mfpu=fpv4-sp-d16", "-mfloat-abi=hard"],
    "cortex-m33": ["--target=thumbv8m.main-none-eabihf", "-mcpu=cortex-m33", "-mfpu=fpv5-sp-d16", "-mfloat-abi=hard"],
    "cortex-m7": ["--target=thumbv7em-none-eabihf", "-mcpu=cortex-m7", "-mfpu=fpv5-d16", "-mfloat-abi=hard"],
    "aarch64": ["--target=aarch64-linux-gnu", "-march=armv8-a", "-fPIC"],
    "rv32imac": ["--target=riscv32-unknown-elf", "-march=rv32imac", "-mabi=ilp32", "-mcmodel=medany"],
    "rv32imafdc": ["--target=riscv32-unknown-elf", "-march=rv32imafdc", "-mabi=ilp32d", "-mcmodel=medany"],
    "rv64gc": ["--target=riscv64-unknown-elf", "-march=rv64gc", "-mabi=lp64d", "-mcmodel=medany"],
}

# What is told of a target beside that where code is made for it: on the M7 no vmla.f64, which rounds twice but looks fused.
MADE_WITH = {"cortex-m7": ["-Xclang", "-target-feature", "-Xclang", "+slowfpvmlx"]}

# What an archive is made for: what clang is told, and the word that each function gets. A function that is called from two places is put
# where it is called more readily than clang would by itself: calls cost more here than what they would repeat.
PURPOSES = {
    "speed": (["-O3", "-mllvm", "-inline-threshold=500"], ""),
    "size": (["-Os", "-mllvm", "-inline-threshold=225"], " optsize"),
}
FOLDERS = {"speed": "", "size": "size"}

# The doubles of processors that have none: the crate of our own, and for each of the compiler's helpers the call of ours that stands in
# its place. A comparison of Arm's says 1 or 0, as ours do; those of RISC-V say less, equal or greater, and firmware/comparisons.c makes
# them of ours.
DOUBLES = "hullashlar_doubles"
ARM = {f"__aeabi_{helper}": f"hullashlar_soft_{ours}" for helper, ours in {
    "dadd": "add", "dsub": "sub", "dmul": "mul", "ddiv": "div", "dcmplt": "lt", "dcmple": "le", "dcmpeq": "eq", "dcmpgt": "gt",
    "dcmpge": "ge", "dcmpun": "un"}.items()}
RISC_V = {f"__{helper}": f"hullashlar_soft_{ours}" for helper, ours in {
    "adddf3": "add", "subdf3": "sub", "muldf3": "mul", "divdf3": "div", "ltdf2": "ltdf2", "ledf2": "ledf2", "eqdf2": "eqdf2",
    "nedf2": "eqdf2", "gtdf2": "gtdf2", "gedf2": "gedf2", "unorddf2": "un"}.items()}
HELPERS = {"cortex-m0plus": ARM, "cortex-m4f": ARM, "cortex-m33": ARM, "rv32imac": RISC_V}
HELPER = re.compile(r"\b__(aeabi_d\w+|\w+df\w*)\b")

# The words of a function's attributes begin so.
ATTRIBUTES = re.compile(r"^(attributes #\d+ = \{)", re.M)

# Instructions that round once where two operations are meant, or keep more digits between them.
FUSED = re.compile(r"\t(fn?m(add|sub)|fml[as]|v?fn?m[as]|vn?ml[as])\b")


def listing_of(text, target, purpose):
    """The target's code for the text of a module, as an assembler reads it."""
    level, attribute = PURPOSES[purpose]
    words = [tool("clang"), *TARGETS[target], *MADE_WITH.get(target, []), *WORDS, *level, "-ffp-contract=off", "-Wno-override-module"]
    text = ATTRIBUTES.sub(rf"\1{attribute}", text)
    return run([*words, "-S", "-x", "ir", "-", "-o", "-"], input=text, stdout=subprocess.PIPE, text=True).stdout


def hold_unfused(target, listing):
    fused = FUSED.search(listing)
    if fused:
        sys.exit(f"{target}: a fused instruction: {fused.group().strip()}")


def assemble(listing, target, code):
    words = [tool("clang"), *TARGETS[target], "--no-default-config", "-Werror", "-Wno-unused-command-line-argument"]
    run([*words, "-c", "-x", "assembler", "-", "-o", code], input=listing, text=True)


def own_doubles(listing, target):
    """The listing with our doubles in place of the compiler's; a helper that has none of ours ends the run."""
    ours = HELPERS[target]
    unknown = sorted({name.group() for name in HELPER.finditer(listing)} - set(ours))
    if unknown:
        sys.exit(f"{target}: doubles that are not ours: {' '.join(unknown)}")
    return HELPER.sub(lambda name: ours[name.group()], listing)


def compiled(text, target, purpose, code, own=True):
    """A module's object for a target, at the path that is given, with our doubles or with the compiler's."""
    listing = listing_of(text, target, purpose)
    hold_unfused(target, listing)
    assemble(own_doubles(listing, target) if own and target in HELPERS else listing, target, code)
    return code


def doubles_of(text, target, purpose, folder):
    """The objects of our doubles for a target that has none; they use no double themselves."""
    code = folder / f"{DOUBLES}.o"
    listing = listing_of(text, target, purpose)
    if HELPER.search(listing):
        sys.exit(f"{target}: our doubles use the compiler's {HELPER.search(listing).group()}")
    assemble(listing, target, code)
    if HELPERS[target] is ARM:
        return [code]
    comparisons = folder / "comparisons.o"
    words = [tool("clang"), *TARGETS[target], "--no-default-config", "-Werror", "-ffreestanding", "-ffunction-sections", "-Os"]
    run([*words, "-c", Path(__file__).resolve().parent / "comparisons.c", "-o", comparisons])
    return [code, comparisons]


def make_archive(folder, objects):
    archive = folder / ARCHIVE
    run([tool("llvm-ar"), "rcsD", "--format=gnu", archive, *objects])
    print(f"{archive.relative_to(ROOT)}: {archive.stat().st_size:,} bytes")


def make_archives(text, doubles, target):
    """The archives of a target, for speed and for size, and where it has no doubles those with the compiler's own."""
    shutil.rmtree(OUT / target, ignore_errors=True)
    for purpose in PURPOSES:
        folder, plain = OUT / target / FOLDERS[purpose], OUT / target / "plain" / FOLDERS[purpose]
        folder.mkdir(parents=True, exist_ok=True)
        objects = [compiled(text, target, purpose, folder / f"{CRATE}.o")]
        if target in HELPERS:
            plain.mkdir(parents=True, exist_ok=True)
            make_archive(plain, [compiled(text, target, purpose, plain / f"{CRATE}.o", own=False)])
            objects += doubles_of(doubles, target, purpose, folder)
        make_archive(folder, objects)


def main():
    targets = sys.argv[1:] or list(TARGETS)
    unknown = [target for target in targets if target not in TARGETS]
    if unknown:
        sys.exit(f"make_archives.py TARGET..., of {' '.join(TARGETS)}; not {' '.join(unknown)}")
    text = of_archive(CRATE)
    doubles = of_archive(DOUBLES) if set(targets) & set(HELPERS) else ""
    for target in targets:
        make_archives(text, doubles, target)


if __name__ == "__main__":
    main()
