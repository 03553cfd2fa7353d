"""Plays journeys on the library for other processors: rows, lines and statuses must be the program's.

    scripts/house check processors                   a sample: the archive for 64-bit ARM, the WebAssembly module in
                                                     node, C on x86-64
    scripts/house check processors-all               each way: both archives, both WebAssembly modules, C on each
                                                     processor with tests of bounds and without, under sanitizers, and
                                                     on a bare ARM; CMake, Debian packages; npm, TypeScript; 2,000 made
                                                     journeys; the page in browsers
    scripts/house check processors-all --planted     mistakes that are planted in copies: each must be found
    scripts/house check processors --dist FOLDER     over what a release has in a folder
    scripts/house check processors --program PATH    another program than crates/sdm/out/sdm for the made journeys

The stored journeys have what is due beside them; for those that are made the built program says it. All but x86-64 and
node run under qemu. `scripts/setup` installs what the sample needs, `scripts/setup processors` the rest. Each line has
the processor time of its part, but where several run at once (--jobs)."""
from __future__ import annotations

import argparse
import os
import resource
import sys
import tempfile
from collections.abc import Callable, Iterable, Iterator
from concurrent.futures import ThreadPoolExecutor
from dataclasses import dataclass
from functools import partial
from pathlib import Path

from scripts.processors import build, journeys, node, page, planted, proved, released
from scripts.processors.played import (
    Job,
    Played,
    by_cmake,
    byte_by_byte,
    heap,
    of_package,
    on_bare_arm,
    over_archive,
    over_c,
    over_own_c,
    sanitized,
)
from scripts.processors.targets import AARCH64, PROCESSORS, RISCV64, X86_64
from sdm.laboratory.cases import Case
from sdm.laboratory.program import Fault, add_program, built


def write_folders(cases: list[Case], into: Path) -> None:
    """Writes cases as folders, as examples/ has them."""
    for count, case in enumerate(cases):
        folder = into / str(count)
        folder.mkdir(parents=True)
        assert case.due is not None
        due = {"rows": case.due.rows, "err": case.due.err, "code": str(case.due.code), "args": f"{case.words[0]}\n"}
        for name, text in due.items():
            (folder / name).write_text(text)
        (folder / "input").write_bytes(case.data)


def sample(folders: dict[str, Path], packed: Path, made: Path, scratch: Path) -> Iterator[Job]:
    """What stands in the gate."""
    prefix, package = build.prefix_of(folders["aarch64"]), folders["wasm"] / "sdm"
    yield partial(over_archive, AARCH64, prefix, packed, scratch / "aarch64")
    yield partial(heap, scratch / "heap")
    yield partial(node.own_tests, package)
    yield partial(node.in_node, package, made, "sdm.wasm")
    yield partial(node.live_in_node, package)
    yield partial(over_own_c, folders["c"], packed, journeys.packed_altered(), scratch / "c", "-O1")


def each_way(folders: dict[str, Path], packed: Path, made: Path, scratch: Path) -> Iterator[Job]:
    """Each way, on each processor."""
    package = folders["wasm"] / "sdm"
    for processor in (AARCH64, RISCV64):
        folder, into = folders[processor.name], scratch / processor.name
        prefix = build.prefix_of(folder)
        yield partial(over_archive, processor, prefix, packed, into)
        yield partial(of_package, processor, next(folder.glob("*.deb")), packed, into / "package")
        yield partial(by_cmake, processor, prefix, into / "cmake")
    yield partial(heap, scratch / "heap")
    yield partial(node.own_tests, package)
    for module in node.MODULES:
        yield partial(node.in_node, package, made, module)
    yield partial(node.live_in_node, package)
    yield partial(node.packs, package)
    yield partial(node.by_npm, next(folders["wasm"].glob("*.tgz")), scratch / "npm")
    yield partial(node.typed, package, scratch / "typed")
    yield partial(page.in_browsers, package, scratch / "page")
    yield partial(over_own_c, folders["c"], packed, journeys.packed_altered(), scratch / "c" / "own")
    for processor in PROCESSORS.values():
        for is_tested in (True, False):
            if not (processor == X86_64 and is_tested):
                yield partial(over_c, processor, folders["c"], packed, scratch / "c" / processor.name, is_tested)
    yield partial(byte_by_byte, folders["c"], packed, scratch)
    yield partial(sanitized, folders["c"], packed, scratch)
    yield partial(on_bare_arm, folders["c"], scratch)


@dataclass(frozen=True)
class Ways:
    """What is tried: of what is built, on how many made journeys, and how."""

    names: tuple[str, ...]
    made: int
    jobs: Callable[[dict[str, Path], Path, Path, Path], Iterator[Job]]


SAMPLE = Ways(("aarch64", "wasm", "c"), 200, sample)
ALL = Ways(tuple(build.WAYS), 2000, each_way)


def planted_ways(only: str) -> Ways:
    """The mistakes that a text is of."""
    return Ways(("wasm", "c"), 200, partial(planted.jobs, only=only))


def seconds_of_children() -> float:
    """The processor time of all that was run and waited for so far."""
    used = resource.getrusage(resource.RUSAGE_CHILDREN)
    return used.ru_utime + used.ru_stime


def timed(job: Job) -> tuple[list[Played], float]:
    """How a job came out, and what it took of processor time where no other one ran beside it."""
    before = seconds_of_children()
    try:
        found = job()
    except Fault as why:
        found = [Played(job.func.__name__, str(why), False)]
    return found, seconds_of_children() - before


def told(jobs: Iterable[Job], count: int) -> list[Played]:
    """How jobs came out, each of which is printed; so many at once."""
    found: list[Played] = []
    with ThreadPoolExecutor(count) as threads:
        for played, seconds in threads.map(timed, jobs):
            time = f" ({seconds:.1f} s)" if count == 1 else ""
            for each in played:
                print(f"{'ok' if each.is_same else 'DIFFERS'}: {each.way}: {each.told}{time}", flush=True)
                time = ""
            found += played
    return found


def folders_of(dist: Path | None, names: Iterable[str], scratch: Path) -> dict[str, Path]:
    """The folders with what is tried: of a release, else built here."""
    if dist is not None:
        return released.unpacked(dist, scratch / "released")
    before, found = seconds_of_children(), {}
    proved.must_hold()
    for name in names:
        print(f"proved or built ({seconds_of_children() - before:.1f} s); next: {name}", flush=True)
        before = seconds_of_children()
        found[name] = build.WAYS[name]()
    print(f"built ({seconds_of_children() - before:.1f} s)", flush=True)
    return found


def played(program: Path, dist: Path | None, scratch: Path, ways: Ways, count: int) -> list[Played]:
    """How each way came out."""
    folders, before = folders_of(dist, ways.names, scratch), sum(os.times()[:4])
    by_seed = journeys.by(program, ways.made) + journeys.misspelt(program)
    packed, made = scratch / "journeys.packed", scratch / "made"
    packed.write_bytes(journeys.packed_with_changes(journeys.stored() + by_seed))
    write_folders(by_seed, made)
    print(f"{len(by_seed)} journeys made, and packed with those that are stored ({sum(os.times()[:4]) - before:.1f} s)")
    return told(ways.jobs(folders, packed, made, scratch), count)


def main(words: list[str]) -> int:
    parser = argparse.ArgumentParser(
        prog="scripts/house check processors", description=__doc__, formatter_class=argparse.RawDescriptionHelpFormatter
    )
    parser.add_argument("--all", action="store_true", help="each way, as check processors-all has it")
    parser.add_argument("--planted", action="store_true", help="planted mistakes, each of which must be found")
    parser.add_argument("--only", default="", metavar="TEXT", help="of these, those whose kind and name have a text")
    parser.add_argument("--dist", type=Path, metavar="FOLDER", help="what a release has in a folder")
    parser.add_argument("--jobs", type=int, default=1, metavar="N", help="so many ways at once")
    add_program(parser)
    given = parser.parse_args(words)
    ways = planted_ways(given.only) if given.planted else ALL if given.all else SAMPLE
    try:
        with tempfile.TemporaryDirectory() as name:
            found = played(built(given.program), given.dist, Path(name), ways, given.jobs)
    except Fault as why:
        print(f"processors: {why}", file=sys.stderr)
        return 1
    failed = sum(not each.is_same for each in found)
    print(f"processors: {len(found) - failed} ways the same, {failed} differ")
    return int(failed > 0)
