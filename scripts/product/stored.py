"""The journeys that are stored as files: those of examples/, and those of vectors/, which `vectors/make` writes."""
from __future__ import annotations

import subprocess

from sdm.laboratory.cases import Case, cases_under
from sdm.laboratory.program import TOP, Fault

FOLDERS = ("examples", "vectors")


def journeys_in(folder: str) -> list[Case]:
    """The journeys of one of the folders; those of vectors/ are made first, where they don't lie there."""
    if folder == "vectors" and subprocess.run([TOP / "vectors" / "make", "missing"]).returncode:
        raise Fault("The journeys of vectors/ aren't those of vectors/DIGESTS.")
    return cases_under(TOP / folder)
