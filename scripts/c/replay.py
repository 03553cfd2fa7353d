"""Holds replay, the C program over the static library, against the built program: rows, fault line and exit status.

    scripts/c/replay.py REPLAY                   over examples/, inputs at the limits of the formats, and the journeys
                                                 that scripts/house check model makes
    scripts/c/replay.py REPLAY --examples        over examples/ alone
    scripts/c/replay.py REPLAY --program PATH    another program than crates/sdm/out/sdm

replay takes plain records alone. Where those of an input aren't plain, it must say so and write nothing; it is then
given the same records written plainly. The input of each third seed is given to `display` and to `why` too.
"""
from __future__ import annotations

import argparse
import collections
import subprocess
import sys
from collections.abc import Iterable, Iterator
from pathlib import Path

from scripts.product.model import GATE_JOURNEYS, made
from sdm.laboratory.cases import Case, cases_under, difference
from sdm.laboratory.piped import end
from sdm.laboratory.program import TOP, Fault, Result, add_program, built, run
from sdm_evidence.makers.journeys import specials
from sdm_evidence.model.data import split
from sdm_evidence.model.outcome import Outcome
from sdm_evidence.model.records import records
from sdm_evidence.model.words import MOST_BYTES

SHOWN = 3  # each so many seeds an input is given to the other commands too
OTHERS = ("display", "why")
NOT_TAKEN = Result("", "replay: the records have a quote, a blank line, a CR or a byte order mark\n", 64)
BYTE_ORDER_MARK = b"\xef\xbb\xbf"


def are_plain(lines: bytes) -> bool:
    """Whether records have no quote, CR, byte order mark or blank line."""
    is_blank = lines.startswith(b"\n") or b"\n\n" in lines
    return not (is_blank or b'"' in lines or b"\r" in lines or lines.startswith(BYTE_ORDER_MARK))


def parts(data: bytes) -> tuple[bytes, bytes]:
    """What stands up to the end of the dividing line, and the records; all and none, where there is no such line."""
    try:
        lines = split(data)[1]
    except Outcome:
        return data, b""
    return data[: len(data) - len(lines)], lines


def written_plain(lines: bytes) -> bytes | None:
    """The same records written plainly; None where a field can't be."""
    plain = b"".join(b",".join(fields) + b"\n" for fields in records(lines))
    is_same = are_plain(plain) and list(records(plain)) == list(records(lines))
    return plain if is_same else None


def differences(program: Path, replay: Path, case: Case) -> tuple[str, list[str]]:
    """How an input came to replay, and where the two differ, in lines."""
    head, lines = parts(case.data)
    names, how, data = ("program", "replay"), "as they are", case.data
    if not are_plain(lines) and len(data) <= MOST_BYTES:
        told = difference(("due", "replay"), NOT_TAKEN, run(replay, case.words, data))
        plain = written_plain(lines)
        if told or plain is None:
            return "not taken", told
        how, data = "written plainly", head + plain
    return how, difference(names, run(program, case.words, case.data), run(replay, case.words, data), case.words)


def compare(title: str, program: Path, replay: Path, cases: Iterable[Case]) -> int:
    """Compares all cases and tells each that differs; how many differ, where there are none that is one."""
    differ, hows = 0, collections.Counter[str]()
    for case in cases:
        how, lines = differences(program, replay, case)
        hows[how] += 1
        if lines:
            differ += 1
            print("\n".join([f"{case.name}: {' '.join(case.words)}", *lines]), flush=True)
    told = ", ".join(f"{hows[how]} {how}" for how in sorted(hows)) or "none was found"
    print(f"{title}: {hows.total() - differ} the same, {differ} differ ({told})", flush=True)
    return differ if hows else 1


def all_words(cases: Iterable[Case]) -> Iterator[Case]:
    """Cases with an input of `run`, once for each of the commands that replay has."""
    for case in cases:
        if case.words in (["run"], ["display"]):
            for word in ("run", *OTHERS):
                yield case._replace(words=[word])


def seeds(words: list[str], step: int = 1) -> Iterator[Case]:
    """The inputs that check-model makes, whatever their words are there, for one of the commands."""
    return (case._replace(words=words) for case in made(0, GATE_JOURNEYS, step))


def main(args: list[str]) -> int:
    parser = argparse.ArgumentParser(prog="scripts/c/replay.py", description=__doc__.split("\n\n")[0])
    parser.add_argument("replay", type=Path, metavar="REPLAY")
    parser.add_argument("--examples", action="store_true", help="examples/ alone")
    add_program(parser)
    words = parser.parse_args(args)
    replay = words.replay.resolve()
    try:
        program = built(words.program)
        bad = compare("examples", program, replay, all_words(cases_under(TOP / "examples")))
        if not words.examples:
            limits = [Case(name, ["run"], data, None) for name, data in specials()]
            bad += compare("limits of the formats", program, replay, all_words(limits))
            bad += compare(f"made journeys, seeds 0 to {GATE_JOURNEYS - 1}", program, replay, seeds(["run"]))
            for word in OTHERS:
                bad += compare(f"each third of them by {word}", program, replay, seeds([word], SHOWN))
    except (Fault, subprocess.SubprocessError) as why:
        print(f"against_replay: {why}", file=sys.stderr)
        return 1
    return int(bad > 0)


if __name__ == "__main__":
    end(lambda: main(sys.argv[1:]))
