#!/usr/bin/env python3
"""Installs into target/installed and uses what stands there as a host does: the shared library shows the calls of the header alone, hosts
in C are compiled by pkg-config and by CMake, the programs run, and man shows its pages. Then uninstalls, and sees that no file is left.

    python3 install/check.py VERSION
"""

import os
import platform
import re
import shutil
import subprocess
import sys
from pathlib import Path

ROOT = Path(__file__).resolve().parent.parent
PLACE = ROOT / "target" / "installed"
HOSTS = ROOT / "target" / "installed_hosts"
EXAMPLES = ROOT / "examples"
PROGRAMS = ("sheet_tensor", "sheet_report", "device_curve") if platform.machine() == "x86_64" else ()
HEADER = (ROOT / "include" / "hullashlar.h").read_text()
CALLS = set(re.findall(r"^uint64_t (hullashlar_\w+)\(", HEADER, re.MULTILINE))
REFUSALS = re.findall(r"HULLASHLAR_REFUSED_(\w+) = (\d+)", HEADER)
WARNINGS = ("-std=c11", "-Wall", "-Wextra", "-Werror", "-O2")


def run(*words: object, given: bytes = b"", found_at: "dict[str, str] | None" = None) -> str:
    """What a command prints; ends the check where it fails or says something on standard error."""
    command = [str(word) for word in words]
    done = subprocess.run(command, input=given, stdout=subprocess.PIPE, stderr=subprocess.PIPE, env={**os.environ, **(found_at or {})})
    if done.returncode != 0 or done.stderr:
        sys.exit(f"{' '.join(command)}: status {done.returncode}\n{done.stdout.decode()}{done.stderr.decode()}")
    return done.stdout.decode()


def expect(what: str, seen: object, wanted: object) -> None:
    """Ends the check where something is not as it must be."""
    if seen != wanted:
        sys.exit(f"{what}: {seen!r}, and not {wanted!r}")


def make(target: str) -> None:
    """Installs or uninstalls; all that is installed stands ready."""
    run("make", "-s", "-C", ROOT, "-o", "ready", target, f"PREFIX={PLACE}", "DESTDIR=")


def files_left() -> "list[str]":
    """What stands below the prefix and is no folder."""
    return sorted(str(path.relative_to(PLACE)) for path in PLACE.rglob("*") if path.is_symlink() or not path.is_dir())


def asked(*words: str) -> "list[str]":
    """What pkg-config answers, as words for a compiler."""
    return run("pkg-config", *words, "hullashlar", found_at={"PKG_CONFIG_PATH": str(PLACE / "lib" / "pkgconfig")}).split()


def check_library(version: str) -> None:
    """The shared library has its name, its links, and no symbol but the calls."""
    major = version.split(".")[0]
    library = PLACE / "lib" / f"libhullashlar.so.{version}"
    for link in (f"libhullashlar.so.{major}", "libhullashlar.so"):
        expect(link, (PLACE / "lib" / link).resolve(), library)
    shown = run("nm", "-D", "--defined-only", library).split()[2::3]
    expect("the symbols of the shared library", sorted(shown), sorted(CALLS))
    named = re.search(r"SONAME.*\[(.*)\]", run("readelf", "-d", library))
    expect("the library's own name", named and named.group(1), f"libhullashlar.so.{major}")


def host_says(host: Path, library: "dict[str, str] | None" = None) -> None:
    """The example host prints and writes what is kept beside it."""
    written = HOSTS / "written.sheet"
    printed = run(host, EXAMPLES / "gain.sheet", written, found_at=library)
    expect(f"what {host.name} prints", printed, (EXAMPLES / "expected.txt").read_text())
    expect(f"what {host.name} writes", written.read_bytes(), (EXAMPLES / "changed.sheet").read_bytes())


def check_pkg_config(version: str) -> None:
    """A host in C with the shared library, with the archive, and with nothing shared at all."""
    expect("pkg-config's version", asked("--modversion"), [version])
    compiled = ("gcc", *WARNINGS, EXAMPLES / "host.c", *asked("--cflags"), "-o")
    run(*compiled, HOSTS / "with_shared", *asked("--libs"))
    run(*compiled, HOSTS / "with_archive", *asked("--variable=archive"))
    run(*compiled, HOSTS / "static", "-static", *asked("--static", "--libs"))
    host_says(HOSTS / "with_shared", {"LD_LIBRARY_PATH": str(PLACE / "lib")})
    host_says(HOSTS / "with_archive")
    host_says(HOSTS / "static")
    needed = run("readelf", "-d", HOSTS / "with_shared")
    expect("the shared library is wanted by its name", f"libhullashlar.so.{version.split('.')[0]}]" in needed, True)
    expect("the archive is carried", "libhullashlar" in run("readelf", "-d", HOSTS / "with_archive"), False)


def configured(source: Path, build: Path) -> bool:
    """Whether CMake finds what a project asks for."""
    words = ["cmake", "-S", source, "-B", build, f"-DCMAKE_PREFIX_PATH={PLACE}"]
    return subprocess.run(words, stdout=subprocess.DEVNULL, stderr=subprocess.DEVNULL).returncode == 0


def check_cmake(version: str) -> None:
    """The example project by find_package, and which versions are found."""
    build = HOSTS / "cmake"
    expect("the example project is configured", configured(EXAMPLES / "cmake", build), True)
    run("cmake", "--build", build)
    for host in ("host", "host_static"):
        expect(f"what {host} of CMake prints", run(build / host), "2.250000\n")
    major, minor, _ = map(int, version.split("."))
    wanted = {"": True, f"{major}.0": True, f"{version} EXACT": True, f"{major}.{minor + 1}": False, f"{major + 1}": False, f"{major - 1}": False}
    for number, (asked_for, found) in enumerate(wanted.items()):
        project = HOSTS / f"project_{number}"
        project.mkdir()
        (project / "CMakeLists.txt").write_text(
            f"cmake_minimum_required(VERSION 3.13)\nproject(asks NONE)\nfind_package(hullashlar {asked_for} REQUIRED)\n"
        )
        expect(f"version {asked_for or 'of any number'} is found", configured(project, project / "build"), found)


def check_programs() -> None:
    """Each program prints of its example what is kept beside it."""
    for program in PROGRAMS:
        kept = ROOT / "crates" / program
        printed = run(PLACE / "bin" / program, given=(kept / "stdin").read_bytes())
        expect(f"what {program} prints", printed, (kept / "stdout").read_text())


def check_pages() -> None:
    """man shows every page without a warning, and the library's page has every call and every refusal."""
    pages = PLACE / "share" / "man"
    for page in [f"man1/{program}.1" for program in PROGRAMS] + ["man3/hullashlar.3"]:
        said = run("groff", "-t", "-man", "-ww", "-z", "-Tutf8", pages / page)
        expect(f"what groff says of {page}", said, "")
        section, name = page[3], Path(page).stem
        shown = run("man", "-M", pages, "--warnings=w", section, name, found_at={"MANWIDTH": "100"})
        expect(f"{page} is shown", f"{name.upper()}({section})" in shown, True)
    text = (pages / "man3" / "hullashlar.3").read_text()
    expect("the calls of hullashlar(3)", set(re.findall(r"^\.B (hullashlar_\w+)$\n(?!once|returns)", text, re.MULTILINE)), CALLS)
    named = re.findall(r"^(\d+)\t(\w+)\t", text, re.MULTILINE)
    expect("the refusals of hullashlar(3)", named, [(number, name.lower()) for name, number in REFUSALS])


def main() -> None:
    version = sys.argv[1]
    for folder in (PLACE, HOSTS):
        shutil.rmtree(folder, ignore_errors=True)
        folder.mkdir(parents=True)
    make("install")
    count = len(files_left())
    check_library(version)
    check_pkg_config(version)
    check_cmake(version)
    check_programs()
    check_pages()
    make("uninstall")
    expect("what is left", files_left(), [])
    print(f"version {version}: {count} files installed and used, {len(CALLS)} calls shown, none left after the uninstall")


main()
