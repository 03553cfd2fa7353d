"""What callgrind counts of a call in a program: how often each instruction of the library ran, and so how often its
loops turned."""
from __future__ import annotations

import re
import subprocess
from collections import Counter
from collections.abc import Iterator
from dataclasses import dataclass
from pathlib import Path

from scripts.bounding.code import printed
from scripts.bounding.flow import Loop
from scripts.bounding.library import Known
from scripts.bounding.work import Turns

OPTIONS = ["-q", "--tool=callgrind", "--dump-instr=yes", "--dump-line=no", "--compress-pos=no", "--compress-strings=no"]
COST = re.compile(r"^0x([0-9a-f]+) (\d+)$")


@dataclass
class Turned:
    """How often a loop turned each time that it was entered, on an average of a call's entries, or in a run of its
    function, and how often it called functions; and how often it may."""

    turns: float
    calls: float
    may: Turns

    def is_more(self) -> bool:
        """Whether that is more than it may."""
        return self.turns > self.may.most or (self.may.calls is not None and self.calls > self.may.calls)

    def shown(self) -> str:
        calls = "" if self.may.calls is None else f", {self.calls:.1f} calls of {self.may.calls}"
        return f"{self.turns:.1f} turns of {self.may.most}{calls}"


def dumps(program: Path, call: str, words: list[str], data: Path, folder: Path) -> Iterator[Counter[int]]:
    """For each run of a call of a program how often each of its instructions ran, by address. The program isn't moved
    where it is loaded."""
    for old in folder.glob("counted*"):
        old.unlink()
    more = [f"--toggle-collect={call}", f"--dump-after={call}", f"--callgrind-out-file={folder}/counted"]
    with data.open("rb") as stdin:
        subprocess.run(["valgrind", *OPTIONS, *more, program, *words], stdin=stdin, capture_output=True)
    for dump in folder.glob("counted.*"):
        yield counts(dump, program)


def counts(dump: Path, program: Path) -> Counter[int]:
    """How often each instruction of the program ran, by a dump; what shared libraries run isn't counted."""
    found: Counter[int] = Counter()
    is_ours, is_call = False, False
    for line in dump.read_text().splitlines():
        if line.startswith("ob="):
            is_ours = line == f"ob={program}"
        elif line.startswith("calls="):
            is_call = True
        elif cost := COST.match(line):
            if is_ours and not is_call:
                found[int(cost[1], 16)] += int(cost[2])
            is_call = False
    return found


def places(program: Path) -> dict[str, int]:
    """The addresses of the functions of a program."""
    found = {}
    for line in printed("nm", "--defined-only", program).splitlines():
        at, kind, name = line.split(" ", 2)
        if kind in "tT":
            found[name] = int(at, 16)
    return found


def turned(known: Known, loop: Loop, may: Turns, ran: Counter[int], moved: int) -> Turned | None:
    """How often a loop turned in a call, by how often its instructions ran, which are so far moved; none where it
    wasn't entered. It is entered no more often than the instructions before it run."""
    code = known.function.code

    def count(nodes: frozenset[int]) -> int:
        return sum(ran[code[k].at + moved] for k in nodes)

    before = frozenset(k for k in known.body.nodes - loop.nodes if known.body.after[k] & loop.entries)
    runs = ran[code[0].at + moved]
    entered = count(before) + (runs if 0 in loop.entries else 0)
    if not entered:
        return None
    calls = count(frozenset(k for k in loop.nodes if code[k].is_call()))
    times = runs if may.is_in_run else entered
    return Turned((count(loop.entries) - entered) / times, calls / times, may)
