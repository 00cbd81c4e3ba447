"""Holds the documents, the headers and the comments against the code: python3 tests/docs_check [FOLDER]. Each fault is one line,
FILE:LINE: what is wrong; the exit status is 1 where there is one."""

import sys
from pathlib import Path

from checks import CHECKS, found_in

ROOT = Path(__file__).resolve().parent.parent.parent


def main() -> None:
    faults = found_in(Path(sys.argv[1]) if len(sys.argv) > 1 else ROOT)
    for fault in faults:
        print(fault)
    print(f"{len(CHECKS)} checks of the documents, {len(faults)} faults")
    sys.exit(bool(faults))


if __name__ == "__main__":
    main()
