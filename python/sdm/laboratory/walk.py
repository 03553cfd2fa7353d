"""A journey of `run` record by record, with the model: what why, curves and plot look at."""
import os
import sys
from collections.abc import Iterator
from fractions import Fraction
from pathlib import Path

from sdm.exact import Commands, Cycle, Event, Number, Outcome, Reading, Refused, Supervisor, open_run

from sdm.laboratory.events import events_of
from sdm.laboratory.program import Fault, Result
from sdm.laboratory.replay import Replay


def read(path: str | os.PathLike[str]) -> bytes:
    """The bytes of a file, or of standard input where the path is `-`."""
    try:
        return sys.stdin.buffer.read() if path == "-" else Path(path).read_bytes()
    except OSError as why:
        raise Fault(f"{path} can't be read: {why.strerror}.") from None


def write(path: str | os.PathLike[str], text: str) -> None:
    """Writes a text to a file."""
    try:
        Path(path).write_text(text)
    except OSError as why:
        raise Fault(f"{path} can't be written: {why.strerror}.") from None


ALL = range(1, sys.maxsize)


class Walk:
    """The records of an input that are accepted, one after the other; `fault` tells the end once they are through.

    Of the readings, counted from 1, those of `judged` are worked out. Those before it are replayed: they leave what
    they would leave. Of those behind it the form and the time alone are looked at."""

    def __init__(self, data: bytes, judged: range = ALL) -> None:
        self.fault, self.judged, self.readings = "", judged, 0
        try:
            self.supervisor, self.events = open_run(data)
        except Outcome as outcome:
            raise Fault(f"The input has no rows: {outcome.line}.") from None
        self.replay = Replay(self.supervisor)

    def __iter__(self) -> Iterator[tuple[Event, Cycle | None]]:
        """For each record: the event, and its cycle where it is a reading that is judged. The supervisor stands right
        behind it."""
        number = 1
        try:
            for number, event in enumerate(events_of(self.events), 1):
                yield event, self.take(event)
                number += 1  # of the next one, whose form may be refused
        except Refused as refused:
            self.fault = f"bad event {number}: {refused}"

    def take(self, event: Event) -> Cycle | None:
        """A record, by the way that its number asks for."""
        self.readings += isinstance(event, Reading)
        if isinstance(event, Reading) and self.readings in self.judged:
            return self.supervisor.take(event)
        if isinstance(event, Reading) and self.readings >= self.judged.stop:
            self.replay.pass_by(event)
        else:
            self.replay.take(event)
        return None


def modelled(data: bytes) -> Result:
    """What the model makes of an input, where there is no program to run. Raises Fault where it has no rows."""
    walk = Walk(data)
    rows = "".join(cycle.row.text() for _, cycle in walk if cycle is not None)
    return Result(rows, f"sdm: {walk.fault}\n", 7) if walk.fault else Result(rows, "", 0)


def at_rows(data: bytes, numbers: range) -> Iterator[tuple[Supervisor, Cycle, Commands]]:
    """At each of some rows, counted from 1: the supervisor right behind it, its cycle, and the commands that were held
    before it."""
    walk = Walk(data, range(numbers.start - 1, numbers.stop))  # the row before has the status that is told
    before, last = walk.supervisor.commands, 0
    for event, cycle in walk:
        if cycle is not None and walk.readings in numbers:
            last = walk.readings
            yield walk.supervisor, cycle, before
        if walk.readings >= numbers[-1]:
            return
        before = walk.supervisor.commands
    end = f", and then {walk.fault}" if walk.fault else ""
    raise Fault(f"The input has no row {max(last + 1, numbers.start)}: it has {walk.readings} of them{end}.")


def at_row(data: bytes, number: int) -> tuple[Supervisor, Reading, Cycle, Commands]:
    """The walk up to a row, counted from 1, with its reading, its cycle, and the commands that were held before it."""
    supervisor, cycle, before = next(at_rows(data, range(number, number + 1)))
    return supervisor, cycle.situation.reading, cycle, before


def at_speed(reading: Reading, kmh: Number, accel: int | None = None, under: int | None = None) -> Reading:
    """A reading with another speed, exactly so many km/h, and, where they are given, another acceleration and
    under-reading."""
    accel, under = reading.accel if accel is None else accel, reading.under if under is None else under
    return reading._replace(speed=Fraction(kmh) * 2500 / 9, accel=accel, under=under)
