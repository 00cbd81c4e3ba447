"""The processors as the emulator has them: what compiles a program for each, and what runs it. Every program here is run with no
system under it."""

import shutil
import subprocess
import sys
from pathlib import Path

HERE = Path(__file__).resolve().parent
ROOT = HERE.parent.parent
ARCHIVES = ROOT / "target" / "firmware"
WORK = ROOT / "target" / "firmware-test"

SOURCE_WORDS = ["-std=gnu11", "-Wall", "-Wextra", "-Werror", "-O2", "-ffreestanding", "-ffunction-sections",
                "-fno-tree-loop-distribute-patterns", f"-I{ROOT / 'include'}", f"-I{HERE}"]
LINK_WORDS = ["-nostdlib", "-static", "-Wl,--gc-sections", "-Wl,--no-warn-rwx-segments", "-Wl,--build-id=none", "-Wl,-z,noexecstack",
              "-T", HERE / "bare.ld"]
NEWLIB = ["-Wl,--start-group", "-lc", "-lrdimon", "-lgcc", "-Wl,--end-group"]
PACKAGES = "gcc-arm-none-eabi libnewlib-arm-none-eabi gcc-aarch64-linux-gnu gcc-riscv64-unknown-elf qemu-system-arm qemu-system-misc"


class Machine:
    """A processor: the prefix of its compiler's name and what that is told, the emulator and its words, where code and data begin."""

    def __init__(self, prefix, words, emulator, addresses, start, library):
        self.prefix, self.words, self.emulator, self.addresses = prefix, words, emulator, addresses
        self.start, self.library = start, library


def cortex_m(words, board, addresses=(0x0, 0x20000000)):
    return Machine("arm-none-eabi-", ["-mthumb", *words], ["qemu-system-arm", "-M", board], addresses, "start_cortex_m.c", ["-lc", "-lgcc"])


def riscv(words, bits, processor):
    emulator = [f"qemu-system-riscv{bits}", "-M", "virt", "-m", "64", "-bios", "none", "-cpu", processor]
    return Machine("riscv64-unknown-elf-", [*words, "-mcmodel=medany"], emulator, (0x80000000, 0x80400000), "start_riscv.S",
                   [HERE / "memory.c", "-lgcc"])


MACHINES = {
    "cortex-m0plus": cortex_m(["-mcpu=cortex-m0plus", "-mfloat-abi=soft"], "mps2-an385"),
    "cortex-m4f": cortex_m(["-mcpu=cortex-m4", "-mfpu=fpv4-sp-d16", "-mfloat-abi=hard"], "mps2-an386"),
    "cortex-m33": cortex_m(["-mcpu=cortex-m33", "-mfpu=fpv5-sp-d16", "-mfloat-abi=hard"], "mps2-an505", (0x10000000, 0x38000000)),
    "cortex-m7": cortex_m(["-mcpu=cortex-m7", "-mfpu=fpv5-d16", "-mfloat-abi=hard"], "mps2-an500"),
    "aarch64": Machine("aarch64-linux-gnu-", ["-march=armv8-a", "-fno-pic", "-no-pie"],
                       ["qemu-system-aarch64", "-M", "virt", "-nodefaults", "-m", "64", "-cpu", "cortex-a53"], (0x40200000, 0x40800000),
                       "start_aarch64.S", [HERE / "memory.c", "-lgcc"]),
    "rv32imac": riscv(["-march=rv32imac", "-mabi=ilp32"], 32, "rv32,f=false,d=false"),
    "rv32imafdc": riscv(["-march=rv32imafdc", "-mabi=ilp32d"], 32, "rv32"),
    "rv64gc": riscv(["-march=rv64gc", "-mabi=lp64d"], 64, "rv64"),
}


def want_tools():
    wanted = {machine.prefix + "gcc" for machine in MACHINES.values()} | {machine.emulator[0] for machine in MACHINES.values()}
    missing = sorted(name for name in wanted if not shutil.which(name))
    if missing:
        sys.exit(f"not installed: {' '.join(missing)}; Debian's packages are {PACKAGES}")


def built(target, name, sources, objects, words=(), hosted=False):
    """A program for a target, of sources here, with these objects and archives, and words to the compiler. A hosted one has a main
    function and newlib under it."""
    machine = MACHINES[target]
    program = WORK / target / name / "program"
    program.parent.mkdir(parents=True, exist_ok=True)
    code, data = machine.addresses
    places = [f"-Wl,--defsym=code_start={code:#x}", f"-Wl,--defsym=data_start={data:#x}"]
    layer, library = ("example.c", NEWLIB) if hosted else ("bare.c", machine.library)
    command = [machine.prefix + "gcc", *machine.words, *SOURCE_WORDS, *words, *LINK_WORDS, *places,
               *[HERE / source for source in [machine.start, layer, *sources]], *objects, *library, "-o", program]
    subprocess.run([str(word) for word in command], check=True)
    return program


def run_emulator(target, program, words, seconds):
    """What the emulator prints while it runs a program in the program's folder."""
    command = [*MACHINES[target].emulator, *words, "-display", "none", "-serial", "null", "-monitor", "none", "-semihosting-config",
               "enable=on,target=native", "-kernel", program]
    done = subprocess.run([str(word) for word in command], cwd=program.parent, timeout=seconds, stdout=subprocess.PIPE)
    if done.returncode != 0:
        sys.exit(f"{target}: {program.parent.name} ended with {done.returncode}")
    return done.stdout


def emulated(target, program, words=(), seconds=1800):
    """What a program emits."""
    emitted = program.parent / "emitted"
    emitted.unlink(missing_ok=True)
    run_emulator(target, program, words, seconds)
    return emitted.read_bytes()


def printed(target, program, seconds=60):
    """What a hosted program prints."""
    return run_emulator(target, program, (), seconds)
