"""The examples of docstrings and of docs/TUTORIAL.md run."""

import doctest
import importlib
import os
import pkgutil
import re
import subprocess
import sys
from pathlib import Path

import pytest

import hullashlar

NAMES = [module.name for module in pkgutil.iter_modules(hullashlar.__path__)]
MODULES = ["hullashlar", *(f"hullashlar.{name}" for name in NAMES if name != "__main__")]
PUBLIC = ["Surface", "Refused", "curve", "stepped", "cell_value", "sheet_value", "Report"]


@pytest.mark.parametrize("name", MODULES)
def test_docstrings(name):
    done = doctest.testmod(importlib.import_module(name), optionflags=doctest.ELLIPSIS)
    assert done.failed == 0


@pytest.mark.parametrize("name", PUBLIC)
def test_every_public_name_has_an_example(name):
    assert ">>> " in getattr(hullashlar, name).__doc__


def blocks(root, language):
    """The blocks of the tutorial in a language, in their order."""
    text = (root / "docs" / "TUTORIAL.md").read_text(encoding="utf-8")
    return re.findall(rf"^```{language}\n(.*?)^```", text, flags=re.DOTALL | re.MULTILINE)


def test_the_tutorial_runs(root, tmp_path, monkeypatch):
    monkeypatch.chdir(tmp_path)
    examples = doctest.DocTestParser().get_doctest("\n".join(blocks(root, "python")), {}, "TUTORIAL", "docs/TUTORIAL.md", 0)
    assert len(examples.examples) > 10
    assert doctest.DocTestRunner(optionflags=doctest.ELLIPSIS).run(examples).failed == 0
    folder = str(Path(sys.executable).parent)
    environment = {**os.environ, "PATH": folder + os.pathsep + os.environ["PATH"], "PYTHONPATH": str(root / "python")}
    for line, said in commands(root):
        done = subprocess.run(line, shell=True, cwd=tmp_path, env=environment, capture_output=True, text=True, check=False)
        assert done.stdout + done.stderr == said, line


def test_the_code_of_the_readme_runs(root):
    section = (root / "README.md").read_text(encoding="utf-8").split("## From Python")[1].split("\n## ")[0]
    code = re.search(r"(?:^    .*\n)+", section, flags=re.MULTILINE).group()
    place = {}
    exec(re.sub(r"^    ", "", code, flags=re.MULTILINE), place)
    assert (place["values"].shape, place["lanes"]) == ((2,), 4)
    assert hullashlar.Surface.read(place["sheet"]).verify()


def commands(root):
    """The commands of the tutorial, each with what it prints."""
    for block in blocks(root, "console"):
        for part in re.split(r"^\$ ", block, flags=re.MULTILINE)[1:]:
            line, _, said = part.partition("\n")
            yield line, said
