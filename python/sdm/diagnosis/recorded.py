"""A recording beside the rows of an input, as a diagnosis takes it: what differs, and which rows are looked at."""

from collections.abc import Sequence
from typing import Any

from sdm.laboratory.comparison import Allowed, Difference, differences, is_beyond, matched
from sdm.laboratory.program import Fault
from sdm.laboratory.recording import RecordedLine
from sdm.laboratory.rows import RowTexts

from sdm.diagnosis.beside import Beside
from sdm.diagnosis.model import triggers
from sdm.diagnosis.numbers import Number, of_data, of_events, of_profile, of_readings
from sdm.diagnosis.runs import Run
from sdm.diagnosis.scene import ABSENT, CELLS, LookedJourney, Look, Scene

MOST_LOOKS = 56  # rows that hypotheses are tried on
OF_A_RUN = 8
BESIDE = 12  # rows that agree, among these
MOST_CHECKED = 2_000  # rows on which what was found is checked in the end


class RecordedScenes:
    """A recording beside the rows of an input: its journey, and its differences beyond the tolerances."""

    def __init__(self, source: bytes, rows: list[RowTexts], lines: list[RecordedLine], allowed: Allowed) -> None:
        if not rows or not lines:
            raise Fault(f"There is nothing to compare: {len(rows)} rows, {len(lines)} lines.")
        self.rows, self.lines, self.allowed = rows, lines, allowed
        self.pairs = matched(rows, lines, allowed["ds"])
        if not self.pairs:
            raise Fault("No row has the time of a line of the recording; look at the scale of `time` in the mapping.")
        self.beyond = [each for each in differences(rows, lines, self.pairs, allowed) if is_beyond(each, allowed)]
        self.beside = Beside(source, rows, lines, self.pairs)
        self.runs = self.beside.runs(self.judged(), allowed)
        self.journey = LookedJourney(source)
        if len(self.journey.readings) < len(rows):
            raise Fault(
                f"The rows are not those of the input: {len(rows)} rows, {len(self.journey.readings)} readings."
            )
        self.line_of = dict(self.pairs)

    def judged(self) -> list[Difference]:
        """The differences in columns that a hypothesis is judged by."""
        return [each for each in self.beyond if each.column in CELLS]

    def look(self, row: int) -> Look:
        """A row as it is looked at, by its number from 1."""
        held = self.journey.readings[row - 1]
        values = self.lines[self.line_of[row - 1]][1]
        recorded = tuple(values.get(name, ABSENT) for name in CELLS)
        before = self.beside.words(row - 1)
        commands = triggers.Commands(before["tco"] == "1", before["sb"] == "1", before["eb"] == "1", before["status"])
        return Look(row, held.reading, held.authority, held.restrictions, commands, recorded, self.near(row))

    def near(self, row: int) -> tuple[frozenset[Any], ...]:
        """The values that the recording has near the time of a row, of each cell."""
        at, most = self.line_of[row - 1], self.allowed["ds"]
        time = self.lines[at][1]["time"]
        there = [at]
        for step in (-1, 1):
            k = at + step
            while 0 <= k < len(self.lines) and abs(self.lines[k][1]["time"] - time) <= most:
                there.append(k)
                k += step
        return tuple(frozenset(self.lines[k][1].get(name) for k in there) for name in CELLS)

    def scene(self, rows: Sequence[int]) -> Scene:
        """The scene of some rows."""
        looks = tuple(self.look(row) for row in sorted(rows))
        journey = self.journey
        return Scene(journey.data, tuple(journey.authorities), tuple(journey.restrictions), looks, self.allowed)

    def chosen(self) -> list[int]:
        """The rows to try hypotheses on: of each run some, one run of each kind first, and some rows that agree."""
        firsts = {run.kind: run for run in reversed(self.runs)}
        ranked = sorted(self.runs, key=lambda run: (firsts[run.kind] is not run, -len(run.numbers)))
        taken: dict[int, None] = {}
        for count in (2, OF_A_RUN):
            for run in ranked:
                for row in some_of(run, count):
                    if len(taken) < MOST_LOOKS - BESIDE:
                        taken.setdefault(row)
        differing = {row for run in self.runs for row in run.numbers}
        agreeing = [row + 1 for row, _ in self.pairs if row + 1 not in differing]
        beside = [row for run in ranked[:4] for row in (run.first - 1, run.last + 1) if row in set(agreeing)]
        return [*taken, *dict.fromkeys(beside[: BESIDE // 2] + evenly(agreeing, BESIDE))]

    def checked(self) -> list[int]:
        """The rows on which what was found is checked: those that differ, and as many that agree, evenly over all."""
        known = {row for run in self.runs for row in run.numbers}
        differing = sorted(known)
        agreeing = [row + 1 for row, _ in self.pairs if row + 1 not in known]
        ends = [row for run in self.runs for row in (run.first, run.last)]
        chosen = evenly(differing, MOST_CHECKED // 2) + ends[: MOST_CHECKED // 6] + evenly(agreeing, MOST_CHECKED // 2)
        return sorted(set(chosen))

    def numbers(self, looks: Sequence[Look]) -> list[Number]:
        """The numbers that may matter to rows: those of the data, of what was in force, and of the profile."""
        journey = self.journey
        ends = [end_of(journey.authorities[look.authority]) for look in looks]
        low = min(look.reading.min for look in looks) // 10 - journey.data.train.length
        high = max([look.reading.max // 10 for look in looks] + ends)
        in_force = {"authority": {look.authority for look in looks}}
        in_force["restriction"] = {k for look in looks for k in look.restrictions}
        events = of_events(journey.authorities, journey.restrictions, journey.data.track.length)
        wanted = [each for each in events if each.path[1] in in_force[str(each.path[0])]]
        under = sorted(look.reading.under for look in looks)[len(looks) // 2]
        return [*of_data(journey.data, (low, high)), *wanted, *of_readings(under), *of_profile()]


def end_of(authority: Any) -> int:
    """The farthest place of an authority, in cm."""
    return int(getattr(authority, "svl", getattr(authority, "loa", 0)))


def some_of(run: Run, count: int) -> list[int]:
    """Some rows of a run: the farthest one off, and others evenly over it."""
    return list(dict.fromkeys([run.farthest.row, *evenly(run.numbers, count - 1)]))


def evenly(numbers: Sequence[int], count: int) -> list[int]:
    """At most so many of some numbers, the first and the last among them."""
    if len(numbers) <= count or count < 2:
        return list(numbers[:count]) if count < 2 else list(numbers)
    step = (len(numbers) - 1) / (count - 1)
    return [numbers[round(step * i)] for i in range(count)]
