"""What journeys have in numbers: how often each command and status, the least margins; of a campaign the slowest.

Of a journey of `run` the rows are counted, with the readings of its input; of other words the end and the time alone.
"""

import csv
from collections import Counter
from collections.abc import Iterable, Iterator, Sequence
from dataclasses import dataclass, field
from pathlib import Path
from typing import TextIO, TypeVar

from sdm.exact import Outcome, Reading, Refused, split

from sdm.laboratory.cases import Case, text_of
from sdm.laboratory.events import events_of
from sdm.laboratory.program import Fault, Result
from sdm.laboratory.rows import RowTexts, rows_of

COMMANDS = {"tco": "traction cut-off", "sb": "service brake", "eb": "emergency brake"}
STATUSES = {"N": "normal", "I": "indication", "O": "overspeed", "W": "warning", "X": "intervention"}
MARGINS = {"ebi": "EBI", "permitted": "P"}  # the limits to which a way is told, by their columns
SLOWEST = 3
C = TypeVar("C", bound="Counts")


@dataclass(frozen=True)
class Margin:
    """The least way from the max safe front end to a limit of its row, in mm; below 0 where it is past the limit."""

    mm: int
    row: int  # counted from 1, as all rows here


@dataclass(kw_only=True)
class Counts:
    """What the rows of a journey have in numbers, with their readings."""

    readings: int = 0
    covered: int = 0  # readings, as the next ones
    commanded: Counter[str] = field(default_factory=Counter)  # by the column of the command
    states: Counter[str] = field(default_factory=Counter)
    statuses: Counter[str] = field(default_factory=Counter)
    set: Counter[str] = field(default_factory=Counter)  # how often a command came, by its column
    first_set: dict[str, int] = field(default_factory=dict)  # the row in which it came first
    margins: dict[str, Margin] = field(default_factory=dict)  # of a train that moves, by the column of the limit
    fastest_mm_s: int = 0
    fastest_row: int | None = None
    way_mm: int = 0  # from the first estimated front end to the last one

    def add(self, row: RowTexts, reading: Reading) -> None:
        """Counts one row more."""
        self.readings += 1
        self.covered += row["covered"] == "1"
        self.states[row["state"]] += 1
        self.statuses[row["status"]] += 1
        for name in MARGINS if reading.speed > 0 else ():
            if row[name] != "-":
                margin = Margin(int(row[name]) - reading.max, self.readings)
                self.margins[name] = min(self.margins.get(name, margin), margin, key=lambda each: each.mm)
        if self.fastest_row is None or reading.speed > self.fastest_mm_s:
            self.fastest_mm_s, self.fastest_row = int(reading.speed), self.readings

    def add_commands(self, row: RowTexts, before: RowTexts | None) -> None:
        """Counts the commands of the row that was counted last, and those that the row before it hadn't."""
        for name in COMMANDS:
            comes = row[name] == "1" and (before is None or before[name] == "0")
            self.commanded[name] += row[name] == "1"
            self.set[name] += comes
            if comes:
                self.first_set.setdefault(name, self.readings)


@dataclass
class Figures(Counts):
    """A journey of a campaign in numbers. `code` is None where it wasn't run, `microseconds` where it wasn't timed."""

    name: str
    words: str
    verdict: str  # as due, differs, nothing due, not run
    code: int | None = None
    microseconds: int | None = None

    def cells(self) -> dict[str, object]:
        """The line of the summary, by its columns."""
        line: dict[str, object] = {"journey": self.name, "words": self.words, "verdict": self.verdict}
        line |= {"code": self.code, "time_us": self.microseconds, "readings": self.readings, "covered": self.covered}
        line |= {f"status_{status}": self.statuses[status] for status in STATUSES}
        for name in COMMANDS:
            line |= {f"{name}_readings": self.commanded[name], f"{name}_times": self.set[name]}
        for name in MARGINS:
            margin = self.margins.get(name)
            line |= {f"least_to_{name}_mm": margin and margin.mm, f"least_to_{name}_row": margin and margin.row}
        return line | {"fastest_mm_s": self.fastest_mm_s, "way_mm": self.way_mm}


@dataclass(frozen=True)
class Statistics:
    """All journeys of a campaign in numbers, by their paths."""

    journeys: Sequence[Figures]

    @property
    def readings(self) -> int:
        """The readings of all journeys."""
        return sum(each.readings for each in self.journeys)

    def commanded(self, name: str) -> tuple[int, int, int]:
        """How often a command is given: the readings, the times that it came, and the journeys."""
        with_it = [each for each in self.journeys if each.commanded[name]]
        return sum(each.commanded[name] for each in with_it), sum(each.set[name] for each in with_it), len(with_it)

    def least(self, name: str) -> Figures | None:
        """The journey with the least margin to a limit."""
        near = [each for each in self.journeys if name in each.margins]
        return min(near, key=lambda each: each.margins[name].mm) if near else None

    def slowest(self, count: int = SLOWEST) -> list[Figures]:
        """The journeys that took longest."""
        timed = [each for each in self.journeys if each.microseconds is not None]
        return sorted(timed, key=lambda each: -(each.microseconds or 0))[:count]

    def counts(self) -> list[list[str]]:
        """How often commands and statuses stand, a line for each: its name, the readings that have it, the times that
        it came, the journeys; empty where that isn't counted."""
        found = []
        for name, title in COMMANDS.items():
            found.append([title, *map(str, self.commanded(name))])
        for status, title in STATUSES.items():
            having = [each.statuses[status] for each in self.journeys if each.statuses[status]]
            found.append([f"{status} {title}", str(sum(having)), "", str(len(having))])
        return [*found, ["covered", str(sum(each.covered for each in self.journeys)), "", ""]]

    def nearest(self) -> Iterator[tuple[str, Figures]]:
        """The limits that trains came near to, by their columns, each with the journey of the least margin."""
        for name in MARGINS:
            least = self.least(name)
            if least is not None:
                yield name, least

    def total(self) -> str:
        """How many readings there are, in how many journeys."""
        return f"{self.readings} readings in {sum(each.readings > 0 for each in self.journeys)} journeys of run"

    def lines(self) -> Iterator[str]:
        """What is printed."""
        yield self.total()
        for title, readings, times, journeys in [["", "readings", "times", "journeys"], *self.counts()]:
            yield f"{title:18}{readings:>9}{times:>7}{journeys:>10}".rstrip()
        for name, least in self.nearest():
            at = least.margins[name]
            yield f"least way from the max safe front end to {MARGINS[name]}: {at.mm:,} mm, {least.name} row {at.row}"
        for each in self.slowest():
            yield f"slow: {milliseconds(each)}, {each.readings} readings, {each.name}"

    def write(self, out: TextIO) -> None:
        """The summary as CSV: a line for each journey."""
        lines = [each.cells() for each in self.journeys]
        writer = csv.DictWriter(out, list(lines[0]) if lines else ["journey"], lineterminator="\n")
        writer.writeheader()
        writer.writerows(lines)


def readings_in(data: bytes) -> Iterator[Reading]:
    """The readings of an input, up to the first record of a form that is refused."""
    try:
        yield from (event for event in events_of(split(data)[1]) if isinstance(event, Reading))
    except (Outcome, Refused):
        return


def figures_of(case: Case, verdict: str, made: Result | None, microseconds: int | None) -> Figures:
    """A journey in numbers, of what the program made of it."""
    found = Figures(case.name, " ".join(case.words), verdict, made.code if made else None, microseconds)
    if made is None or case.words != ["run"]:
        return found
    try:
        rows = rows_of(made.rows)
    except Fault:  # rows of another program: they are none to be counted
        return found
    return count(found, zip(rows, readings_in(case.data)))


def count(found: C, pairs: Iterable[tuple[RowTexts, Reading]]) -> C:
    """Counts rows with their readings."""
    before, begun = None, 0
    for row, reading in pairs:
        if before is None:
            begun = reading.est
        found.add(row, reading)
        found.add_commands(row, before)
        found.way_mm, before = reading.est - begun, row
    return found


def milliseconds(figures: Figures) -> str:
    """The time that a journey took, as a text."""
    return f"{(figures.microseconds or 0) / 1000:.1f} ms"


def microseconds_of(folder: Path) -> int | None:
    """The time that a journey took, where it was taken."""
    text = text_of(folder / "got.time", "").strip()
    return int(text) if text.isdecimal() else None


def statistics_of(figures: Iterable[Figures]) -> Statistics:
    """The journeys of a campaign in numbers, by their paths."""
    return Statistics(sorted(figures, key=lambda each: each.name))
