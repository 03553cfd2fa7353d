"""Holds the built program against the model: over examples/, over vectors/, over the mistakes of which the tests of
tools/explain say what is told, and over journeys made from a seed, some of them with many falls.

    scripts/house check model                                what the gate runs, after the model's own tests
    scripts/house check model --seed 5000 --journeys 9000    the journeys of the seeds 5000 to 13999 alone
    scripts/house check model --falls --journeys 9000        9000 journeys with many falls alone
    scripts/house check model --program PATH                 another program than crates/sdm/out/sdm

Each journey of examples/ and vectors/ is given to `why` besides. The input of each third seed is given to `display`,
to `why` and to `certify` too, and each third seed makes a drive, and a text for `check`, besides. Journeys with many
falls are given to `display` and `why` alone. Of each difference it tells the input, the first row or line that
differs, and both texts. `tools/journeys input SEED` writes the journey of a seed, `drive SEED` its drive, `falls
SEED` its journey with many falls, and `tools/certified SEED` its text for `check`.
"""
from __future__ import annotations

import argparse
import collections
import sys
import time
from argparse import Namespace
from collections.abc import Callable, Iterable, Iterator
from pathlib import Path

from scripts.packages.tests import PYTHON_TESTS, passed
from scripts.product.stored import FOLDERS, journeys_in
from sdm.laboratory.cases import Case, difference
from sdm.laboratory.mistakes import mistakes
from sdm.laboratory.program import TOP, Fault, Result, add_program, built, run
from sdm_evidence.makers.certified import a_certify, a_check
from sdm_evidence.makers.journeys import a_drive, a_fall_journey, make
from sdm_evidence.model.words import collect

OfSeeds = Callable[..., Iterable[Case]]  # of the first seed and how many
GATE_JOURNEYS = 1000
GATE_FALLS = 200  # journeys with many falls
PROGRESS = 2000  # journeys between two lines of progress
SHARE = 3  # each so many seeds an input is given to the other commands too; `display` costs the model more than `run`
JOURNEYS = (["run"], ["display"], ["certify"])  # the commands whose input is a journey
OTHERS = ("display", "why")  # to which the journeys of seeds are given besides
BESIDES = [("drive", a_drive), ("certify", a_certify), ("check", a_check)]


def own_tests() -> bool:
    """Whether the model passes its own tests."""
    print("the model's own tests:", flush=True)
    return passed(PYTHON_TESTS / "model") == 0


def made(first: int, count: int, step: int = 1) -> Iterator[Case]:
    """The journeys of some seeds, as cases with nothing due."""
    for seed in range(first, first + count, step):
        words, name, data = make(seed)
        yield Case(f"seed {seed} ({name})", words, data, None)


def with_falls(first: int, count: int, step: int = 1) -> Iterator[Case]:
    """The journeys of some seeds with many falls, as cases with nothing due."""
    for seed in range(first, first + count, step):
        words, data = a_fall_journey(seed)
        yield Case(f"falls {seed}", words, data, None)


def mistaken() -> Iterator[Case]:
    """The inputs of the tests of tools/explain, with the fault line that is due, as cases of `run`."""
    table = (TOP / "python" / "tests" / "laboratory" / "mistakes.txt").read_text()
    whole = (TOP / "examples" / "every-key" / "input").read_text()
    for number, case in enumerate(mistakes(table, whole), 1):
        data = case.text.encode()
        rows, _, code = collect(["run"], data)
        yield Case(f"mistake {number}", ["run"], data, Result(rows, case.fault + "\n", code))


def by(word: str, first: int, count: int, of_seeds: OfSeeds = made) -> Iterator[Case]:
    """The inputs of each third of some seeds, whatever their words, as cases of another command."""
    for case in of_seeds(first, count, SHARE):
        yield case._replace(words=[word])


def explained(cases: Iterable[Case]) -> Iterator[Case]:
    """The journeys among some cases as cases of `why`, with nothing due."""
    for case in cases:
        if case.words[:1] in JOURNEYS:
            yield case._replace(words=["why"], due=None)


def besides(what: str, of_seed: Callable[[int], tuple[list[str], bytes]], first: int, count: int) -> Iterator[Case]:
    """What is made of each third of some seeds besides their journeys."""
    for seed in range(first, first + count, SHARE):
        words, data = of_seed(seed)
        yield Case(f"{what} {seed}", words, data, None)


def differences(program: Path, case: Case) -> tuple[list[str], int]:
    """Where model, program and, for a stored journey, its files differ: all that differs from the model, in lines."""
    model = Result(*collect(case.words, case.data))
    lines = difference(("model", "program"), model, run(program, case.words, case.data), case.words)
    if case.due:
        lines += difference(("model", "stored"), model, case.due, case.words)
    return lines, model.code


def compare(title: str, program: Path, cases: Iterable[Case], count: int) -> int:
    """Compares all cases and tells each that differs; how many differ, where there are none that is one."""
    done, differ, ends, begun = 0, 0, collections.Counter[int](), time.monotonic()
    for done, case in enumerate(cases, 1):
        lines, code = differences(program, case)
        ends[code] += 1
        if lines:
            differ += 1
            print("\n".join([f"{case.name}: {' '.join(case.words) or '(no words)'}", *lines]), flush=True)
        if done % PROGRESS == 0:
            print(f"  {done} of {count}, {differ} differ, {time.monotonic() - begun:.0f} s", flush=True)
    by_end = ", ".join(f"{ends[code]} with {code}" for code in sorted(ends))
    print(f"{title}: {done - differ} the same, {differ} differ ({by_end or 'none was found'})", flush=True)
    return differ if done else 1


def compare_seeds(title: str, program: Path, of_seeds: OfSeeds, first: int, count: int) -> int:
    """Compares the journeys of some seeds, and each third of them by other commands; how many differ."""
    title = f"{title}, seeds {first} to {first + count - 1}"
    differ = compare(title, program, of_seeds(first, count), count)
    for word in OTHERS:
        cases = by(word, first, count, of_seeds)
        differ += compare(f"each third of them by {word}", program, cases, -(-count // SHARE))
    return differ


def compare_stored(program: Path) -> int:
    """Compares what is stored, after the model's own tests; how many differ or fail."""
    differ = int(not own_tests())
    for folder in FOLDERS:
        differ += compare(folder, program, modelled(journeys_in(folder)), 0)
        differ += compare(f"journeys of {folder} by why", program, explained(journeys_in(folder)), 0)
    return differ + compare("mistakes of tools/explain", program, mistaken(), 0)


def modelled(cases: Iterable[Case]) -> Iterator[Case]:
    """The cases of commands that the model has: it has no `live`, whose rows `scripts/house check live` holds beside
    those of `run`."""
    return (case for case in cases if case.words != ["live"])


def words_of(args: list[str]) -> Namespace:
    parser = argparse.ArgumentParser(prog="scripts/house check model", description=__doc__.split("\n\n")[0])
    parser.add_argument("--seed", type=int, metavar="N", help="made journeys alone, from this seed on")
    parser.add_argument("--falls", action="store_true", help="journeys with many falls alone")
    parser.add_argument(
        "--journeys",
        type=int,
        metavar="N",
        help=f"how many journeys are made, one a seed; else {GATE_JOURNEYS}, of those with many falls {GATE_FALLS}",
    )
    add_program(parser)
    words = parser.parse_args(args)
    if words.journeys is None:
        words.journeys = GATE_FALLS if words.falls else GATE_JOURNEYS
    return words


def main(args: list[str]) -> int:
    words = words_of(args)
    first, count, is_all = words.seed or 0, words.journeys, words.seed is None and not words.falls
    try:
        program = built(words.program)
        bad = compare_stored(program) if is_all else 0
        if not words.falls:
            bad += compare_seeds("made journeys", program, made, first, count)
            for what, of_seed in BESIDES:
                title, cases = f"{what} of each third of these seeds", besides(what, of_seed, first, count)
                bad += compare(title, program, cases, -(-count // SHARE))
        if words.falls or is_all:
            count = count if words.falls else GATE_FALLS
            bad += compare_seeds("journeys with many falls", program, with_falls, first, count)
    except Fault as why:
        print(f"check model: {why}", file=sys.stderr)
        return 1
    return int(bad > 0)
