"""Holds calls of the shared library of c/sdm_calls.h against the built program: over inputs that are spoilt at random,
as those of `scripts/house try inputs`, by both forms of a call; and runs the tests of `sdm.command`. It prints how long
small journeys and a long one take, of which nothing is asserted.

    python3 -m scripts.c.calls ARCHIVE [--program PATH] [--inputs N] [--seed N]
"""
from __future__ import annotations

import argparse
import ctypes
import os
import sys
import tempfile
import time
from collections.abc import Callable
from pathlib import Path

from inputs import smooth
from scripts.packages.tests import PYTHON_TESTS, passed
from scripts.tries import inputs as spoilt
from sdm.build_calls import build
from sdm.calls import command_by, loaded
from sdm.laboratory.program import TOP, Fault, Result, add_program, built, run

INPUTS = 2_000
EACH_LARGE = 700  # each such input has some 16 MiB
SMALL = 1_000  # journeys, of which the time is told
BAD_WORDS = Result("", "sdm: bad words\n", 1)  # `live` has calls of its own
LINE_BYTES = 192


class Ended(ctypes.Structure):
    """struct sdm_ended."""

    _fields_ = [("text_bytes", ctypes.c_uint64), ("line_bytes", ctypes.c_uint32), ("line", ctypes.c_uint8 * LINE_BYTES)]


def into(library: ctypes.CDLL, words: tuple[str, ...], data: bytes) -> Result:
    """What a call over lent memory tells, with as much room as the text needs, which a call with none tells."""
    given, ended = "\0".join(words).encode(), Ended()

    def call(room: ctypes.Array[ctypes.c_char]) -> int:
        lent = len(room) - 1  # the last byte isn't lent
        code: int = library.sdm_command_into(
            given,
            ctypes.c_size_t(len(given)),
            data,
            ctypes.c_size_t(len(data)),
            room,
            ctypes.c_size_t(lent),
            ctypes.byref(ended),
        )
        if room.raw[-1:] != b"\xa5":
            raise Fault("a call writes past the room that it is lent")
        return code

    call(ctypes.create_string_buffer(b"\xa5", 1))
    count = ended.text_bytes
    room = ctypes.create_string_buffer(b"\0" * count + b"\xa5", count + 1)
    code = call(room)
    text, line = room.raw[:count], bytes(ended.line[: ended.line_bytes])
    return Result(text.decode(errors="replace"), line.decode(errors="replace"), code)


def faults(library: ctypes.CDLL, program: Path, first: int, count: int) -> int:
    """How many inputs a form of a call answers otherwise than the program."""
    chosen, found, bad = argparse.Namespace(seed=first, each_large=EACH_LARGE), spoilt.seeds(), 0
    for number in range(1, count + 1):
        one = spoilt.made(number, chosen, found)
        due = run(program, one.words, one.given)
        forms = {"text": command_by(library, one.words, one.given), "into": into(library, one.words, one.given)}
        for form, told in forms.items():
            if told != (BAD_WORDS if one.words == ("live",) else due):
                bad += 1
                said = f"{told.code} {told.err!r}, due {due.code} {due.err!r}"
                print(f"input {number} of seed {first}, {form}: {one.words}: {said}", flush=True)
    print(f"spoilt inputs: {count}, by two forms of a call; {bad} differ", flush=True)
    return bad


def seconds(does: Callable[[], object], times: int) -> tuple[float, float]:
    """How long something takes so many times: on the clock, and of the processor's time here and in what it starts."""
    began, before = time.perf_counter(), sum(os.times()[:4])
    for _ in range(times):
        does()
    return time.perf_counter() - began, sum(os.times()[:4]) - before


def tell_times(library: ctypes.CDLL, program: Path) -> None:
    """How long calls and processes take over the same inputs."""
    small = (TOP / "examples" / "approach" / "input").read_bytes()
    for title, data, times in ((f"{SMALL} small journeys", small, SMALL), ("100,000 readings", smooth(1).whole(), 1)):
        for way, does in (
            ("by calls", lambda: command_by(library, ["run"], data)),
            ("by processes", lambda: run(program, ["run"], data)),
        ):
            clock, processor = seconds(does, times)
            print(f"{title} {way}: {clock:.3f} s, {processor:.3f} of the processor", flush=True)


def main(words: list[str]) -> int:
    parser = argparse.ArgumentParser(prog="scripts.c.calls", description=__doc__.split("\n\n")[0])
    add_program(parser)
    parser.add_argument("archive", type=Path)
    parser.add_argument("--inputs", type=int, default=INPUTS, metavar="N")
    parser.add_argument("--seed", type=int, default=1, metavar="N")
    asked = parser.parse_args(words)
    with tempfile.TemporaryDirectory() as scratch:
        shared, program = Path(scratch) / "libsdm-calls.so", built(asked.program)
        build(asked.archive, shared)
        library = loaded(str(shared))
        bad = faults(library, program, asked.seed, asked.inputs)
        tell_times(library, program)
        return passed(PYTHON_TESTS / "calls", SDM_CALLS_LIBRARY=str(shared), SDM_PROGRAM=str(program)) or int(bad > 0)


if __name__ == "__main__":
    sys.exit(main(sys.argv[1:]))
