"""Runs the tests of a part of the Python of this repository by pytest. Fails where one does, or where there is none.

    scripts/house check laboratory    makes vectors/ anew first, and holds them against vectors/DIGESTS
"""
from __future__ import annotations

import os
import shutil
import subprocess
import sys
from pathlib import Path

from sdm.laboratory.program import TOP, Fault

PYTHON_TESTS = TOP / "python" / "tests"
NEEDED = {"pictures": "gnuplot"}


def passed(folder: Path, **environment: str) -> int:
    """The exit status of the tests of a folder, with further words of the environment."""
    settings = str(TOP / "python" / "pyproject.toml")
    words = ["-m", "pytest", "-q", "--no-header", "-p", "no:cacheprovider", "--continue-on-collection-errors"]
    done = subprocess.run([sys.executable, *words, "-c", settings, str(folder)], cwd=TOP, env=os.environ | environment)
    return int(done.returncode != 0)


def main(words: list[str]) -> int:
    part = words[0]
    needed = NEEDED.get(part)
    if needed and not shutil.which(needed):
        raise Fault(f"{needed} is not installed; scripts/setup installs it.")
    if part == "laboratory" and subprocess.run([TOP / "vectors" / "make"]).returncode:
        return 1
    return passed(TOP / "scripts" / "tests" if part == "scripts" else PYTHON_TESTS / part)
