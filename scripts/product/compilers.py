"""Holds two builds of the program against each other: LLVM's, which all else runs, and the one by the toolchain's own
compiler, which `rt ci` leaves beside it. Over examples/, vectors/, worked/ and journeys made from seeds both must
write the same rows and the same fault line, to the byte, and end with the same status.

    scripts/house check compilers                                what the gate runs
    scripts/house check compilers --program PATH --other PATH    two other builds
    scripts/house check compilers --seed 5000 --journeys 9000    the journeys of the seeds 5000 to 13999 alone
"""
from __future__ import annotations

import argparse
import sys
from collections.abc import Iterable
from pathlib import Path

from scripts.product.model import BESIDES, GATE_JOURNEYS, besides, by, made
from scripts.product.stored import FOLDERS, journeys_in
from scripts.product.worked import cases_of, tables
from sdm.laboratory.cases import Case, difference
from sdm.laboratory.program import BUILT, Fault, add_program, built, run

OTHER = BUILT.with_name(f"{BUILT.name}.by-rattle")
NAMES = ("LLVM", "rattle")


def stored() -> Iterable[Case]:
    """The runs that are stored."""
    for folder in FOLDERS:
        yield from journeys_in(folder)
    for table in tables():
        yield from cases_of(table)


def generated(first: int, count: int) -> Iterable[Case]:
    """Journeys of some seeds, and what is made of each third of them for the other commands."""
    yield from made(first, count)
    for word in ("display", "why"):
        yield from by(word, first, count)
    for what, of_seed in BESIDES:
        yield from besides(what, of_seed, first, count)


def compare(title: str, one: Path, other: Path, cases: Iterable[Case]) -> int:
    """Runs both builds over all cases and prints each that differs; how many do, and one where there is no case."""
    done = differ = 0
    for done, case in enumerate(cases, 1):
        lines = difference(NAMES, run(one, case.words, case.data), run(other, case.words, case.data), case.words)
        if lines:
            differ += 1
            print("\n".join([f"{case.name}: {' '.join(case.words) or '(no words)'}", *lines]), flush=True)
    print(f"{title}: {done - differ} the same, {differ} differ", flush=True)
    return differ if done else 1


def main(words: list[str]) -> int:
    parser = argparse.ArgumentParser(prog="scripts/house check compilers", description=__doc__.split("\n\n")[0])
    add_program(parser)
    parser.add_argument("--other", type=Path, default=OTHER, metavar="PATH", help="the build that is held against it")
    parser.add_argument("--seed", type=int, metavar="N", help="made journeys alone, from this seed on")
    parser.add_argument("--journeys", type=int, default=GATE_JOURNEYS, metavar="N", help="how many journeys are made")
    asked = parser.parse_args(words)
    try:
        one, other = built(asked.program), built(asked.other)
        bad = compare("stored runs", one, other, stored()) if asked.seed is None else 0
        bad += compare("made runs", one, other, generated(asked.seed or 0, asked.journeys))
    except Fault as why:
        print(f"check compilers: {why}", file=sys.stderr)
        return 1
    return int(bad > 0)
