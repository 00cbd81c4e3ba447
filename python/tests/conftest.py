"""What the tests share: the repository's folder, the example sheet, and grids that hypothesis makes."""

import os
import subprocess
import sys
from pathlib import Path

import pytest

ROOT = Path(__file__).resolve().parents[2]


@pytest.fixture(scope="module")
def root():
    return ROOT


@pytest.fixture(scope="module")
def gain_sheet():
    return (ROOT / "examples" / "gain.sheet").read_bytes()


@pytest.fixture
def typed(tmp_path):
    """Runs a line as a user types it, in a clean folder with the example sheet; answers the finished program."""
    (tmp_path / "gain.sheet").write_bytes((ROOT / "examples" / "gain.sheet").read_bytes())
    folder = str(Path(sys.executable).parent)
    environment = {**os.environ, "PATH": folder + os.pathsep + os.environ["PATH"], "PYTHONPATH": str(ROOT / "python")}

    def run(line):
        return subprocess.run(line, shell=True, cwd=tmp_path, env=environment, capture_output=True, text=True, check=False)

    run.folder = tmp_path
    return run
