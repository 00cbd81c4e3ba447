"""The commands as a user types them, in a clean folder."""

import os
import pty
import re
import subprocess
import sys

import numpy as np
import pytest

from hullashlar import Surface
from hullashlar.command import LONG, kept_numbers, main

COMMAND = "python3 -m hullashlar"
COMMANDS = ["show", "pack", "query", "change", "verify", "report", "draw"]


def examples(help_text):
    """The lines below the word example."""
    lines = re.split(r"^examples?:$", help_text, flags=re.MULTILINE)[1].strip("\n").splitlines()
    return [line.strip() for line in lines if line.strip()]


def fine(done):
    assert (done.returncode, done.stderr) == (0, ""), done
    return done.stdout


def test_the_examples_of_help_work_as_written(typed):
    shown = examples(fine(typed(f"{COMMAND} --help")))
    assert all(any(f"hullashlar {name} " in line for line in shown) for name in COMMANDS)
    for line in shown:
        fine(typed(line))


@pytest.mark.parametrize("name", COMMANDS)
def test_each_help_has_an_example_that_works(typed, name):
    fine(typed(f"{COMMAND} show gain.sheet -o gain.txt"))
    fine(typed(f"{COMMAND} change gain.sheet --at 2 2 --to 15 -o changed.sheet"))
    for line in examples(fine(typed(f"{COMMAND} {name} --help"))):
        fine(typed(line))


def test_show_then_pack_and_edit(typed):
    fine(typed(f"{COMMAND} show gain.sheet -o gain.txt"))
    assert fine(typed(f"{COMMAND} show gain.sheet")) == (typed.folder / "gain.txt").read_text()
    fine(typed(f"{COMMAND} pack gain.txt -o again.sheet && cmp gain.sheet again.sheet"))
    fine(typed("sed -i 's/ 12.0 / 15.0 /' gain.txt"))
    fine(typed(f"{COMMAND} pack gain.txt -o edited.sheet"))
    fine(typed(f"{COMMAND} change gain.sheet --at 2 2 --to 15 -o changed.sheet && cmp edited.sheet changed.sheet"))


def test_query(typed, gain_sheet):
    value = float(fine(typed(f"{COMMAND} query gain.sheet 1.5 60")))
    assert value == Surface.read(gain_sheet)([1.5, 60.0])
    held = float(fine(typed(f"{COMMAND} query gain.sheet -1e-3 60 --how full")))
    assert held == Surface.read(gain_sheet)([0.25, 60.0])


def test_change_says_what_moved(typed):
    said = fine(typed(f"{COMMAND} change gain.sheet --at 2 2 --to 15 -o changed.sheet"))
    words = r"sample at 2, 2: 15\.0 in place of 12\.0, 7 lanes solved, 36 of 100 numbers moved, by 19\.\d+ at most\n"
    assert re.fullmatch(words, said)
    said = fine(typed(f"{COMMAND} change gain.sheet --at 2 2 --to 12 -o same.sheet && cmp gain.sheet same.sheet"))
    assert said.endswith("no number moved\n")


def test_change_of_huge_numbers(typed):
    line = Surface([[0.0, 1e10]], [-1.5e308, 0.0], "natural")
    (typed.folder / "huge.sheet").write_bytes(line.write())
    assert fine(typed(f"{COMMAND} change huge.sheet --at 0 --to 1.5e308 -o new.sheet")).endswith("by inf at most\n")


def test_change_keeps_the_edition(typed):
    (typed.folder / "first.sheet").write_bytes(Surface([[0.0, 1.0]], [0.0, 1.0], "natural").write(edition=1))
    fine(typed(f"{COMMAND} change first.sheet --at 1 --to 2 -o new.sheet"))
    changed = Surface.read((typed.folder / "new.sheet").read_bytes())
    assert (changed.edition, changed.samples.tolist()) == (1, [0.0, 2.0])


def test_verify_finds_the_stale_number(typed):
    fine(typed(f"{COMMAND} show gain.sheet --tensor -o tensor.txt"))
    assert fine(typed(f"{COMMAND} verify tensor.txt")).startswith("whole")
    fine(typed("sed -i 's/ 12.0 / 15.0 /' tensor.txt"))
    done = typed(f"{COMMAND} verify tensor.txt")
    assert (done.returncode, done.stdout) == (1, "")
    assert done.stderr == "stale: 35 numbers differ from a fresh build, the first at 0, 0 with mask 3\n"


def test_report(typed, gain_sheet):
    (typed.folder / "stream").write_bytes(gain_sheet * 3)
    said = fine(typed(f"{COMMAND} report stream gain.sheet"))
    assert "stream: sheets 3, accepted 3, read to its end" in said
    assert "gain.sheet: sheets 1, accepted 1, read to its end" in said
    assert re.search(r"^ +0 +75 +72  30\.0$", said, flags=re.MULTILINE)


def test_report_of_a_stream_that_stops(typed, gain_sheet):
    (typed.folder / "cut").write_bytes(gain_sheet + gain_sheet[:-1])
    done = typed(f"{COMMAND} report cut gain.sheet")
    assert done.returncode == 1
    assert done.stderr == "cut: stopped in sheet 2: refused 11 (short): Fetch the whole sheet: this one ends before its fields do.\n"
    assert "refused 11 (short): 1" in done.stdout and "gain.sheet: sheets 1" in done.stdout


def test_report_goes_on_after_a_sheet_that_is_not_built(typed, gain_sheet):
    falling = gain_sheet[:3] + bytes(8) + gain_sheet[11:]
    (typed.folder / "stream").write_bytes(falling + gain_sheet)
    done = typed(f"{COMMAND} report stream")
    assert done.returncode == 0 and "sheets 2, accepted 1, read to its end" in done.stdout


@pytest.mark.parametrize("times, bars", [(1, False), (LONG // 300 + 1, True)])
def test_a_bar_on_a_terminal_for_a_long_stream(typed, gain_sheet, times, bars):
    (typed.folder / "stream").write_bytes(gain_sheet * times)
    terminal, end = pty.openpty()
    environment = {**os.environ, "PYTHONPATH": os.pathsep.join(sys.path)}
    command = [sys.executable, "-m", "hullashlar", "report", "stream"]
    done = subprocess.run(command, cwd=typed.folder, env=environment, stdout=subprocess.PIPE, stderr=end, check=True)
    os.close(end)
    said = b""
    if bars:
        said = os.read(terminal, 65536)
    os.close(terminal)
    assert (b"[#" in said and said.endswith(b"\r\x1b[K")) == bars
    assert f"accepted {times}".encode() in done.stdout


@pytest.mark.parametrize(
    "line, sentence",
    [
        ("query gain.sheet nan 60", "refused 7 (number): "),
        ("query gain.sheet 1.5 60 --how direct", "refused 21 (uneven) on axis 0 behind knot 1: "),
        ("change gain.sheet --at 5 0 --to 1 -o new.sheet", "refused 6 (place): "),
        ("show /dev/null", "refused 11 (short): "),
        ("query /dev/null 1", "refused 11 (short): "),
        ("draw gain.sheet --change 2 2 inf -o picture.svg", "refused 7 (number): "),
    ],
)
def test_a_refusal_is_status_1_and_one_sentence(typed, line, sentence):
    done = typed(f"{COMMAND} {line}")
    assert (done.returncode, done.stdout) == (1, "")
    assert done.stderr.startswith(sentence) and done.stderr.count("\n") == 1
    assert sorted(path.name for path in typed.folder.iterdir()) == ["gain.sheet"]


@pytest.mark.parametrize(
    "line",
    [
        "",
        "unknown",
        "show",
        "show no.sheet",
        "pack gain.txt",
        "query gain.sheet",
        "query gain.sheet 1",
        "query gain.sheet one 60",
        "query gain.sheet 1_5 60",
        "change gain.sheet --at 1 --to 2 -o new.sheet",
        "change gain.sheet --at one 1 --to 2 -o new.sheet",
        "draw gain.sheet -o picture.txt",
        "draw gain.sheet --stale -o picture.svg",
        "draw gain.sheet --at 1 -o picture.svg",
    ],
)
def test_wrong_usage_is_status_2(typed, line):
    done = typed(f"{COMMAND} {line}")
    assert (done.returncode, done.stdout) == (2, "") and done.stderr
    assert "Traceback" not in done.stderr


def test_main_in_a_program(capsys, root):
    assert main(["query", str(root / "examples" / "gain.sheet"), "1.5", "60"]) == 0
    assert np.isfinite(float(capsys.readouterr().out))


def test_numbers_below_zero_are_no_options():
    assert kept_numbers(["--to", "-1e-3", "-o", "-inf"]) == ["--to", " -1e-3", "-o", " -inf"]
