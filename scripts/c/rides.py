"""Fails where a ride made at random under the static library for C breaks what a covered row promised, or where the
rides don't find a planted fault. It prints what the rides show; so too, which nothing asserts, of rides whose brakes
work 0.1 s later than the times hold.

    scripts/house check rides            takes the static library that was built and marked
    scripts/house check rides LIBRARY    takes another one
"""
from __future__ import annotations

from scripts.packages.tests import PYTHON_TESTS, passed
from scripts.product.marks import library_of
from sdm_evidence.makers.rides import main as ride

RIDES = "200"
KEPT, BROKEN = 0, 1  # exit statuses of tools/rides


def main(words: list[str]) -> int:
    archive = str(library_of(words))
    if passed(PYTHON_TESTS / "rides", SDM_ARCHIVE=archive) or ride(["--rides", RIDES, "--library", archive]) != KEPT:
        return 1
    print("with brakes 0.1 s later than the times hold:", flush=True)
    return int(ride(["--rides", RIDES, "--late", "1", "--library", archive]) not in (KEPT, BROKEN))
