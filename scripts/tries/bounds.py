"""Holds the bounds of the calls from C against what c/replay.c takes over inputs: the stack, painted before each
call, the instructions, as callgrind counts them for each call, and the turns of each loop. It is no part of the gate.

    scripts/house try bounds [LIBRARY]           over the inputs of scripts/c/inputs.py and
                                                 scripts/tries/heavy_inputs.py, and more that cost much
    scripts/house try bounds --made [LIBRARY]    over the journeys of vectors/, and those that scripts/house check
                                                 model makes, besides: an hour of processor time

Instructions of the C library's own functions aren't counted, as they aren't in the bounds. It prints what was counted
beside the bounds, and fails where a call took more than its bound, a loop turned more often than its row says, or the
bound of a call is more times as much as was counted than is its aim."""
from __future__ import annotations

import os
import re
import subprocess
import sys
from collections import Counter
from collections.abc import Iterator
from concurrent.futures import ThreadPoolExecutor
from dataclasses import dataclass, field
from pathlib import Path
from tempfile import TemporaryDirectory

from inputs import RESTRICTIONS, SPEED_STEPS, TRACK_CM, Numbers, greatest_data, greatest_restrictions, greatest_train
from scripts.bounding import table
from scripts.bounding.bounds import TABLE, library_of
from scripts.bounding.calls import Bounds, bounded
from scripts.bounding.counted import Turned, dumps, places, turned
from scripts.bounding.library import Library
from scripts.bounding.table import Table
from scripts.c import header, inputs, replay
from scripts.pages.specs import ROOT
from scripts.product import model
from scripts.tries import heavy_inputs
from sdm.laboratory.cases import cases_under
from sdm.laboratory.program import LIBRARY

HERE = ROOT / "scripts" / "tries"
PARTS = ["replay", "journey", "heap_malloc"]
ASKED = ("sdm_would_cover", "sdm_would_cover_up_to", "sdm_has_trip_place", "sdm_clear_of")
# Of replay, for the calls that `run` doesn't make.
WORDS = {"sdm_display": "display", "sdm_causes": "why", **dict.fromkeys(ASKED, "ask")}
READINGS = 100  # of an input are counted at most
AIMS = {"sdm_cycle": 2, "sdm_display": 5, "sdm_restrict": 5, "sdm_revoke": 5}  # times the most that is counted
PAINTED = re.compile(r"^painted (\w+) (\d+)$", re.M)
Places = dict[str, int]  # the addresses of functions


@dataclass
class Most:
    """The most that a call took, and the input of it."""

    stack: int = 0
    instructions: int = 0
    of: str = ""

    def add(self, other: "Most") -> None:
        self.stack = max(self.stack, other.stack)
        if other.instructions > self.instructions:
            self.instructions, self.of = other.instructions, other.of


@dataclass
class Tried:
    """What was seen of all calls, and of all loops by their functions and numbers."""

    calls: dict[str, Most]
    loops: dict[tuple[str, int], Turned] = field(default_factory=dict)

    def note_turns(self, name: str, number: int, turned: Turned | None) -> None:
        before = self.loops.get((name, number))
        if turned and before:
            turned = Turned(max(turned.turns, before.turns), max(turned.calls, before.calls), turned.may)
        if turned:
            self.loops[name, number] = turned

    def add(self, other: "Tried") -> None:
        for call, most in other.calls.items():
            self.calls[call].add(most)
        for (name, number), seen in other.loops.items():
            self.note_turns(name, number, seen)


def far_ahead(top_kmh: int, step_kmh: int) -> str:
    """Data whose falls all lie far ahead of a train at the begin, one after the other down from a speed: it passes none
    of their limits, and none is hidden early. The restrictions make as many falls more as there may be."""
    data = inputs.with_areas(greatest_data(Numbers(1), "true", greatest_train(bands=10, width_kmh=50)))
    first, step = TRACK_CM - 1_300_000, 10_000
    speeds = [(0, 500), *((first + step * k, top_kmh - step_kmh * k) for k in range(1, SPEED_STEPS))]
    entries = "".join(f"[[track.speed]]\nstart = {start}\nspeed = {speed}\n" for start, speed in speeds)
    before, _, behind = data.partition("[[track.speed]]\n")
    areas = behind[behind.index("[[track.adhesion]]") :]
    held = [(first + step * (3 * k + 1) + 3000, top_kmh - step_kmh * (3 * k + 1) - 1) for k in range(RESTRICTIONS)]
    lines = "".join(f"restrict,{k},{start},{start + 3000},{speed},0\n" for k, (start, speed) in enumerate(held))
    return before + entries + areas + lines


def heavier() -> Iterator[tuple[str, str]]:
    """Inputs that cost more than those of bench/: restrictions over the whole track that come and go, readings with all
    falls ahead, and authorities all along the track."""
    data = inputs.with_areas(greatest_data(Numbers(1), "true", greatest_train(bands=10, width_kmh=50)))
    held = list(greatest_restrictions())
    yield "wide", data + "".join(held[:-1]) + f"restrict,99,0,{TRACK_CM},1,1\nrevoke,99\n" * 10
    speeds = [*range(1000, 138_889, 6000), 138_888]
    for accel, under in ((300, 10_000), (-10, 500), (100, 472)):
        reads = "".join(f"read,{n},1000,900,1100,{v},{accel},{under}\n" for n, v in enumerate(speeds))
        yield f"ahead {accel} {under}", data + "".join(held) + reads
        for top_kmh, step_kmh in ((400, 3), (330, 1), (220, 1)):
            yield f"far {top_kmh} {accel} {under}", far_ahead(top_kmh, step_kmh) + reads
    ends = [(TRACK_CM * k // SPEED_STEPS, TRACK_CM) for k in range(1, SPEED_STEPS, 5)]
    records = "".join(
        f"endcalc,{eoa},{svl},{eoa}\nend,{eoa},{svl},40\nlimit,{eoa},{eoa % 499 + 1}\n" for eoa, svl in ends
    )
    yield "ends", data + "".join(held) + records
    yield from heavy_inputs.inputs()


def shortened(text: str) -> str:
    """An input with its first readings alone."""
    data, line, records = text.partition("%%\n")
    kept: list[str] = []
    readings = 0
    for record in records.splitlines(keepends=True):
        readings += record.startswith("read")
        if readings > READINGS or len(kept) > 10 * READINGS:
            break
        kept.append(record)
    return data + line + "".join(kept)


def costly() -> Iterator[tuple[str, bytes]]:
    """Inputs that cost much, by their names."""
    for name, data in inputs.inputs().items():
        yield name, shortened(data.decode()).encode()
    for name, text in heavier():
        yield name, text.encode()


def made() -> Iterator[tuple[str, bytes]]:
    """The journeys of vectors/ and those that scripts/house check model makes, with records as replay takes them."""
    subprocess.run([ROOT / "vectors" / "make", "missing"], check=True, stdout=sys.stderr)
    cases = [
        *cases_under(ROOT / "vectors"),
        *model.made(0, model.GATE_JOURNEYS),
        *model.with_falls(0, model.GATE_FALLS),
    ]
    for case in cases:
        head, lines = replay.parts(case.data)
        if case.words in (["run"], ["display"]) and (plain := replay.written_plain(lines)) is not None:
            yield case.name, head + plain


def compiled(library: Path, calls: list[str], folder: Path) -> tuple[Path, Path]:
    """Two programs: replay, and replay whose calls are wrapped."""
    sources = [ROOT / "c" / f"{part}.c" for part in PARTS]
    plain, painted, wrapped = folder / "replay", folder / "painted", folder / "wrapped.s"
    wrapped.write_text((HERE / "paint_calls.s").read_text() + "".join(f"    wrapped {call}\n" for call in calls))
    words = [f"-Wl,--wrap={call}" for call in calls]
    common = ["cc", "-std=c11", "-O2", "-no-pie"]
    subprocess.run([*common, "-o", plain, *sources, library], check=True)
    subprocess.run([*common, *words, "-o", painted, *sources, HERE / "paint_calls.c", wrapped, library], check=True)
    return plain, painted


def painted_in(program: Path, words: list[str], data: Path) -> dict[str, int]:
    """The most stack of each call over an input."""
    with data.open("rb") as stdin:
        done = subprocess.run([program, *words], stdin=stdin, capture_output=True, text=True)
    return {name: int(most) for name, most in PAINTED.findall(done.stderr)}


def note_counts(
    tried: Tried, call: str, name: str, ran: Counter[int], library: Library, rows: Table, at: Places
) -> None:
    """Notes what a run of a call over an input took, and how often its loops turned."""
    most, instructions = tried.calls[call], ran.total()
    if instructions > most.instructions:
        most.instructions, most.of = instructions, name
    for function in library.reached(call):
        known = library.known.get(function)
        if known is None or function not in at:
            continue
        for loop in known.loops():
            moved = at[function] - known.function.begin.at
            seen = turned(known, loop, rows.turns(function, loop), ran, moved)
            tried.note_turns(function, loop.number, seen)


@dataclass
class Played:
    """What plays inputs: the two programs, the addresses of the first one's functions, the library and its table."""

    plain: Path
    painted: Path
    at: Places
    calls: list[str]
    library: Library
    rows: Table

    def over(self, name: str, data: bytes) -> Tried:
        """The most that each call took over an input, and each loop turned."""
        found = Tried({call: Most() for call in self.calls})
        with TemporaryDirectory() as scratch:
            folder = Path(scratch)
            stored = folder / "input"
            stored.write_bytes(data)
            for word in ("run", "display", "why", "ask"):
                words = [word, str(stored)] if word == "run" else [word]  # the input again is a change of data
                for call, stack in painted_in(self.painted, words, stored).items():
                    found.calls[call].stack = max(found.calls[call].stack, stack)
                    if call != "sdm_layout" and word == WORDS.get(call, "run"):
                        for ran in dumps(self.plain, call, words, stored, folder):
                            note_counts(found, call, name, ran, self.library, self.rows, self.at)
        return found


def tried(path: Path, calls: list[str], library: Library, rows: Table, inputs: list[tuple[str, bytes]]) -> Tried:
    """The most that each call took over all inputs, and each loop turned."""
    found = Tried({call: Most() for call in calls})
    with TemporaryDirectory() as scratch, ThreadPoolExecutor(os.cpu_count()) as pool:
        plain, painted = compiled(path, calls, Path(scratch))
        played = Played(plain, painted, places(plain), calls, library, rows)
        for (name, _), seen in zip(inputs, pool.map(lambda each: played.over(*each), inputs), strict=True):
            found.add(seen)
            print(f"{name} was tried", file=sys.stderr, flush=True)
    return found


def compared(bound: Bounds, most: Most) -> tuple[str, bool]:
    """What a call took at most beside its bound, as a line, and whether it took more."""
    stack = bound.stack.depth if bound.stack else 0
    instructions = bound.counts.get("instructions", 0)
    line = f"{bound.call}: stack {most.stack:,} of {stack:,}"
    if most.instructions:
        times = instructions / most.instructions
        line += f"; instructions {most.instructions:,} of {instructions:,} ({most.of}), {times:.2f} times"
    return line, most.stack > stack or most.instructions > instructions


def aimed(bound: Bounds, most: Most) -> tuple[str, bool]:
    """How many times the most that was counted the bound of a call is, as a line, and whether that is above the aim."""
    times, aim = bound.counts.get("instructions", 0) / max(most.instructions, 1), AIMS[bound.call]
    return f"{bound.call}: the bound is {times:.2f} times the most that was counted; {aim} is the aim", times > aim


def main(words: list[str]) -> int:
    inputs = [*costly(), *(made() if "--made" in words else [])]
    libraries = [word for word in words if word != "--made"]
    path = Path(libraries[0]) if libraries else LIBRARY.path
    rows = table.read(TABLE)
    library = library_of(path, rows)
    # the stack of one that frees has that of the heap, which the bound leaves out
    found = [
        each
        for each in bounded(library, rows, [call.name for call in header.calls(header.text())])
        if each.call not in rows.freeing
    ]
    took = tried(path, [each.call for each in found], library, rows, inputs)
    is_more = False
    for each in found:
        line, more = compared(each, took.calls[each.call])
        is_more |= more
        print(line)
    for name, loops in sorted(rows.loops.items()):
        for number, row in enumerate(loops):
            seen = took.loops.get((name, number))
            is_more |= seen is not None and seen.is_more()
            print(f"{name}, loop {number}, {row.walk}: {seen.shown() if seen else 'not entered'}")
    for each in found:
        if each.call in AIMS:
            line, more = aimed(each, took.calls[each.call])
            is_more |= more
            print(line)
    return int(is_more)
