"""Makes the shared library of the static one for C, and fails where the Python package does otherwise over it than its
tests say: over examples/, vectors/, the examples of docs/PYTHON.md, its notebook, and ten thousand hostile calls.

    scripts/house check library            takes the static library that was built and marked
    scripts/house check library LIBRARY    takes another one
"""
from __future__ import annotations

import subprocess
import tempfile
from pathlib import Path

from scripts.packages.tests import PYTHON_TESTS, passed
from scripts.product.marks import library_of
from sdm.build_library import build
from sdm.laboratory.program import TOP


def main(words: list[str]) -> int:
    archive = library_of(words)
    subprocess.run([TOP / "vectors" / "make", "missing"], check=True)
    with tempfile.TemporaryDirectory() as scratch:
        shared = Path(scratch) / "libsdm.so"
        build(archive, shared)
        return passed(PYTHON_TESTS / "library", SDM_LIBRARY=str(shared))
