"""The package installs without a network, and then needs neither the repository nor a compiler; and what it asks of its thread."""

import os
import platform
import shutil
import subprocess
import sys
import venv

import pytest


def run(command, folder, **environment):
    names = {name: value for name, value in os.environ.items() if name != "PYTHONPATH"}
    return subprocess.run(command, cwd=folder, env={**names, **environment}, capture_output=True, text=True, check=False)


def test_pip_installs_it_without_a_network(root, tmp_path, gain_sheet):
    shutil.copytree(root / "python", tmp_path / "python", ignore=shutil.ignore_patterns("build", "*.egg-info", "__pycache__"))
    venv.create(tmp_path / "place", system_site_packages=True, with_pip=True)
    programs = tmp_path / "place" / "bin"
    install = [programs / "python3", "-m", "pip", "install", "--no-index", "--no-build-isolation", "./python"]
    done = run(install, tmp_path)
    assert done.returncode == 0, done.stderr
    shutil.rmtree(tmp_path / "python")
    (tmp_path / "gain.sheet").write_bytes(gain_sheet)
    for command in ([programs / "hullashlar"], [programs / "python3", "-m", "hullashlar"]):
        assert run([*command, "query", "gain.sheet", "1", "65"], tmp_path, PATH="").stdout == "12.0\n"
        assert "accepted 1" in run([*command, "report", "gain.sheet"], tmp_path, PATH="").stdout
    assert "  hullashlar show gain.sheet" in run([programs / "hullashlar", "--help"], tmp_path).stdout


def test_no_library_is_said_plainly(root, tmp_path):
    shutil.copytree(root / "python" / "hullashlar", tmp_path / "hullashlar", ignore=shutil.ignore_patterns("proved", "__pycache__"))
    done = run([sys.executable, "-c", "import hullashlar"], tmp_path, PYTHONPATH=str(tmp_path))
    assert done.returncode == 1 and "run `make python` in the repository first" in done.stderr


ROUNDING_UP = {"x86_64": 0x800, "aarch64": 0x400000}


@pytest.mark.skipif(platform.machine() not in ROUNDING_UP, reason="wants the machine's number for rounding up")
def test_a_thread_that_rounds_up_is_not_computed_under(root, tmp_path):
    rounds = f"ctypes.CDLL('libm.so.6').fesetround({ROUNDING_UP[platform.machine()]})"
    program = f"import ctypes, hullashlar; assert {rounds} == 0; hullashlar.cell_value(0, 0, 0, 0, 0)"
    done = run([sys.executable, "-c", program], tmp_path, PYTHONPATH=str(root / "python"))
    assert "FloatingPointError: this thread does not round to the nearest number" in done.stderr


@pytest.mark.skipif(shutil.which("gcc") is None, reason="wants gcc")
def test_a_thread_that_flushes_subnormal_numbers_is_not_computed_under(root, tmp_path):
    (tmp_path / "flushes.c").write_text("int nothing;\n")
    subprocess.run(["gcc", "-shared", "-fPIC", "-ffast-math", "flushes.c", "-o", "flushes.so"], cwd=tmp_path, check=True)
    program = "import ctypes, hullashlar; ctypes.CDLL('./flushes.so'); hullashlar.cell_value(0, 0, 0, 0, 0)"
    done = run([sys.executable, "-c", program], tmp_path, PYTHONPATH=str(root / "python"))
    assert "FloatingPointError: this thread flushes subnormal numbers" in done.stderr
