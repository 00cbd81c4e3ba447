"""Builds the package around the shared library that `make python` has linked: the rest stands in pyproject.toml."""

from pathlib import Path

from setuptools import Distribution, setup

if not (Path(__file__).parent / "hullashlar" / "proved" / "libhullashlar.so").exists():
    raise SystemExit("there is no shared library yet: run `make python` in the repository first")


class OfOneMachine(Distribution):
    """A package with code for one machine, so that its wheel is named for it."""

    def has_ext_modules(self) -> bool:
        return True


setup(distclass=OfOneMachine)
