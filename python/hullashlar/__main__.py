"""``python3 -m hullashlar``."""

from .command import entry

entry()
