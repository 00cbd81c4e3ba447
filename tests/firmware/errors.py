"""Errors that the comparison must find: operations fused, subnormal numbers flushed to zero, another rounding. `make firmware` must
refuse the first by itself, objdump must find it, and the line of docs/FIRMWARE.md that looks at the settings must see the others."""

import re
import subprocess
import sys

import make_archives
import module
from machines import ARCHIVES, MACHINES, WORK, built, emulated

# The processors that compute doubles themselves, and those of them that can flush.
WITH_DOUBLES = ["cortex-m7", "aarch64", "rv32imafdc", "rv64gc"]
FLUSHING = ["cortex-m7", "aarch64"]


def hold_unfused(target, code):
    """No instruction of an archive or an object fuses two operations, as the target's own objdump reads it."""
    words = [MACHINES[target].prefix + "objdump", "-d", str(code)]
    listing = subprocess.run(words, check=True, stdout=subprocess.PIPE, text=True).stdout
    if not re.search(r"\t\w", listing):
        sys.exit(f"{target}: nothing was disassembled")
    make_archives.hold_unfused(target, listing)


def refused(check, *given):
    """Whether a check ends the run."""
    try:
        check(*given)
    except SystemExit:
        return True
    return False


def hold_make_firmware_fails():
    """`make firmware` ends where no module is kept, where it is another than the archive's, and at each word that it must not have."""
    if not refused(module.kept, "no_module", ["version"]):
        sys.exit("a module that was not kept was not missed")
    if not refused(module.hold_to_the_archive, "hullashlar", ARCHIVES / "hullashlar_doubles.bc"):
        sys.exit("another module was taken for the archive's")
    for line in ["%3 = fmul fast double %1, %2", "%4 = call double @llvm.fma.f64(double %1, double %2, double %3)",
                 'target triple = "x86_64-unknown-linux-gnu"', "%2 = fpext float %1 to double"]:
        if not refused(module.hold_to_the_rules, "hullashlar", line):
            sys.exit(f"not refused: {line}")
    print("make firmware ends where it must")


def contracted(target):
    """The code of the module with leave to fuse, once it has been refused as text, as a listing and as an object."""
    text = re.sub(r"= (fadd|fsub|fmul) double", r"= \1 contract double", (ARCHIVES / f"{make_archives.CRATE}.ll").read_text())
    listing = make_archives.listing_of(text, target, "speed")
    if not refused(module.hold_to_the_rules, "hullashlar", text):
        sys.exit("a module with leave to fuse was not refused")
    if not refused(make_archives.hold_unfused, target, listing):
        sys.exit(f"{target}: fused instructions were not refused")
    code = WORK / target / "contracted.o"
    make_archives.assemble(listing, target, code)
    if not refused(hold_unfused, target, code):
        sys.exit(f"{target}: fused instructions were not found by objdump")
    return code


def settings_right(target, words):
    """What the line of docs/FIRMWARE.md says of the float settings."""
    return emulated(target, built(target, "settings", ["settings.c"], [], words)) == b"\1"


def hold_settings(target, words, right):
    if settings_right(target, words) != right:
        sys.exit(f"{target}: the float settings are not told apart")


def tried(differences):
    """Tries each error by what counts the records that differ; gives a line for each."""
    for target in WITH_DOUBLES:
        yield f"{target}, operations fused", differences(target, "contracted", contracted(target), ())
        hold_settings(target, [], True)
        hold_settings(target, ["-DROUND_UP"], False)
        yield f"{target}, rounding upward", differences(target, "upward", ARCHIVES / target / "libhullashlar.a", ["-DROUND_UP"])
    for target in FLUSHING:
        hold_settings(target, ["-DFLUSH_TO_ZERO"], False)
        yield f"{target}, flushing to zero", differences(target, "flushing", ARCHIVES / target / "libhullashlar.a", ["-DFLUSH_TO_ZERO"])
