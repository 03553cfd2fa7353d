"""Rides made at random: a plain simulation of trains under the built supervisor, whoever drives them.

    tools/rides --rides 1000                       within the premises: all must keep what covered rows promise
    tools/rides --rides 1000 --late 1              with brakes 0.1 s later than the times hold: some pass the SvL
    tools/rides --rides 1000 --ignored 1           the first order of the emergency brake isn't handed on
    tools/rides --rides 1000 --release             with release speeds and changes of data: none passes its SvL
    tools/rides --rides 1000 --release --broken wide    the same with a premise broken, by its name

c/ride.c rides, over the static library for C; `ride_worlds` and `release_worlds` make what it rides over. The premises
are those of docs/ASSUMPTIONS.md, "What a ride promises" and "What a ride with a release speed promises". It ends with 0
where all rides keep the promises, with 1 where one doesn't, with 2 where it can't run. """
from __future__ import annotations

import argparse
import subprocess
import sys
import tempfile
from collections import Counter
from collections.abc import Iterator
from concurrent.futures import ThreadPoolExecutor
from pathlib import Path
from random import Random
from typing import NamedTuple

from sdm_evidence.makers.release_worlds import Broken, a_release_scenario, a_release_world
from sdm_evidence.makers.ride_worlds import Scenario, World, a_scenario, a_world, scenario_text, world_text

TOP = Path(__file__).resolve().parents[3]
LIBRARY = TOP / "crates" / "sdm_c" / "out" / "libsdm_c.a"
RIDES_OF_A_WORLD, RIDES_AT_ONCE = 20, 1_000
PARTS = ("rides", "ride", "ride_computer", "journey", "heap_malloc")


class NoRide(Exception):
    """Why nothing can be ridden, in a sentence."""


class RideOutcome(NamedTuple):
    """What a ride shows; nothing of the SvL where none was ever promised."""

    verdict: str
    readings: int
    covered: int
    released: int
    orders: int
    overdue: int
    refused: int
    changes: int
    stops: int
    nearest_mm: int | None


def built(library: Path, into: Path) -> Path:
    """The program c/rides.c over the static library, built into a folder."""
    if not library.is_file():
        raise NoRide(f"There is no library at {library}; `rt lib` in crates/sdm_c proves and builds it.")
    program = into / "rides"
    sources = [str(TOP / "c" / f"{part}.c") for part in PARTS]
    try:
        subprocess.run(["cc", "-std=c11", "-O2", "-o", str(program), *sources, str(library)], check=True)
    except (OSError, subprocess.CalledProcessError) as why:
        raise NoRide(f"c/rides.c isn't built: {why}.") from None
    return program


def ridden(program: Path, text: bytes) -> list[RideOutcome]:
    """The outcomes of the rides of a text, in their order."""
    done = subprocess.run([program], input=text, capture_output=True)
    if done.returncode != 0:
        raise NoRide(f"{program} ended with {done.returncode}.")
    return [outcome_of(line.split()) for line in done.stdout.decode().splitlines()]


def outcome_of(fields: list[str]) -> RideOutcome:
    """What a line of c/rides.c says."""
    verdict, *counts, nearest = fields
    return RideOutcome._make([verdict, *map(int, counts), None if nearest == "-" else int(nearest)])


class Asked(NamedTuple):
    """Which rides are asked for."""

    late: int = 0
    ignored: int = 0
    has_release: bool = False
    broken: Broken = Broken.NONE


def rides_of(seed: int, count: int, asked: Asked) -> Iterator[tuple[World, list[Scenario]]]:
    """Worlds, with so many rides over all of them; the same for a seed."""
    rng = Random(seed)
    for first in range(0, count, RIDES_OF_A_WORLD):
        rides = range(min(RIDES_OF_A_WORLD, count - first))
        if asked.has_release:
            made = a_release_world(rng, asked.broken)
            yield made.world, [a_release_scenario(rng, made, asked.broken) for _ in rides]
        else:
            world = a_world(rng)
            yield world, [a_scenario(rng, world, asked.late, asked.ignored) for _ in rides]


def ride_all(program: Path, seed: int, count: int, asked: Asked) -> list[RideOutcome]:
    """The outcomes of so many rides of a seed."""
    text = b"".join(
        world_text(world) + b"".join(map(scenario_text, scenarios)) for world, scenarios in rides_of(seed, count, asked)
    )
    outcomes = ridden(program, text)
    if len(outcomes) != count:
        raise NoRide(f"{program} rode {len(outcomes)} of {count} rides.")
    return outcomes


def told(outcomes: list[RideOutcome]) -> str:
    """What rides show, as a page tells it."""
    verdicts = Counter(outcome.verdict for outcome in outcomes)
    sums = {name: sum(getattr(each, name) for each in outcomes) for name in RideOutcome._fields[1:-1]}
    nearest = [each.nearest_mm for each in outcomes if each.verdict == "kept" and each.nearest_mm is not None]
    near = sum(mm < 1_000 for mm in nearest)
    return "\n".join(
        [
            f"{len(outcomes)} rides: {verdicts['kept']} keep all promises, {verdicts['svl']} pass the SvL, "
            f"{verdicts['target']} pass a speed target too fast, {verdicts['unjudged']} aren't judged",
            f"{sums['readings']} readings, {sums['covered']} of them covered, {sums['released']} promising in release "
            f"speed monitoring, {sums['overdue']} found missing",
            f"{sums['orders']} orders of the emergency brake, {sums['stops']} stops, {sums['refused']} records refused",
            f"{sums['changes']} changes of data",
            f"of those that keep them {near} come within a metre of a promised SvL, the nearest to "
            f"{min(nearest, default='-')} mm",
        ]
    )


def words_of(args: list[str]) -> argparse.Namespace:
    parser = argparse.ArgumentParser(prog="tools/rides", description=__doc__.split("\n\n")[0])
    parser.add_argument("--rides", type=int, default=200, metavar="N", help="how many rides, 200 where it isn't said")
    parser.add_argument("--seed", type=int, default=0, metavar="SEED", help="of the first thousand rides; 0")
    parser.add_argument("--late", type=int, default=0, metavar="DS", help="how much later than E the brakes work")
    parser.add_argument("--ignored", type=int, default=0, metavar="N", help="how many orders aren't handed on")
    parser.add_argument("--release", action="store_true", help="with release speeds and changes of data")
    names = [each.value for each in Broken]
    parser.add_argument("--broken", choices=names, default="none", help="of --release: which premise is broken")
    parser.add_argument("--jobs", type=int, default=1, metavar="N", help="how many programs ride at once; 1")
    parser.add_argument("--library", type=Path, default=LIBRARY, metavar="PATH", help="another library than that built")
    return parser.parse_args(args)


def ride_by_words(words: argparse.Namespace) -> list[RideOutcome]:
    """The outcomes of all rides that the words ask for, a thousand to a seed."""
    counts = [min(RIDES_AT_ONCE, words.rides - first) for first in range(0, words.rides, RIDES_AT_ONCE)]
    with tempfile.TemporaryDirectory() as folder, ThreadPoolExecutor(words.jobs) as pool:
        program = built(words.library, Path(folder))

        asked = Asked(words.late, words.ignored, words.release, Broken(words.broken))

        def part(seed: int, count: int) -> list[RideOutcome]:
            return ride_all(program, seed, count, asked)

        seeds = range(words.seed, words.seed + len(counts))
        return [outcome for outcomes in pool.map(part, seeds, counts) for outcome in outcomes]


def main(args: list[str]) -> int:
    words = words_of(args)
    try:
        outcomes = ride_by_words(words)
    except NoRide as why:
        print(f"rides: {why}", file=sys.stderr)
        return 2
    print(told(outcomes))
    return int(any(outcome.verdict != "kept" for outcome in outcomes))
