"""Finds the program `bitcol`, and provides the command of that name."""

from __future__ import annotations

import os
import shutil
import sys
from pathlib import Path

from .errors import OperationalError

# A wheel contains the program, beside this module.
INSTALLED = Path(__file__).resolve().parent / "bin" / "bitcol"
VARIABLE = "BITCOL"


def find_program() -> str:
    """Returns the path of the program: the one that the environment variable BITCOL names, else the one that was
    installed with this package, else `bitcol` on PATH. Raises OperationalError if there is none."""
    named = os.environ.get(VARIABLE)
    if named:
        return named
    if INSTALLED.exists():
        return str(INSTALLED)
    found = shutil.which("bitcol")
    if found is None:
        raise OperationalError(f"no program: name it, set {VARIABLE}, or put bitcol on PATH")
    return found


def main() -> None:
    """The command `bitcol`: replaces this process by the program that was installed with this package."""
    os.execv(INSTALLED, [str(INSTALLED), *sys.argv[1:]])
