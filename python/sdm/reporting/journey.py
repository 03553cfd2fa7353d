"""A journey as a report has it: each reading with its row, why the row is as it is, and the curves that counted.

All of it becomes one JSON object, which page.js draws. Columns of numbers are lists of steps from one value to the
next, some of them of what they are more than another column, since a hundred thousand readings then take a fraction of
the room; None stays None. Places are in mm and speeds in mm/s, as in readings and rows; those of curves are in cm and
thousandths of a km/h. What counts for some readings alone has the numbers of the first one and of the one behind the
last, from 0.
"""

import collections
import math
from collections.abc import Hashable, Iterable, Sequence
from typing import Any

from sdm.drawing.journey import counted, ends_held, set_lines, steps
from sdm.drawing.values import DrawnEnd, Held
from sdm.laboratory.program import Fault
from sdm.laboratory.rows import COLUMNS, LIMITS, RowTexts
from sdm.laboratory.texts import short
from sdm.laboratory.walk import Walk
from sdm import exact
from sdm.exact import (
    Commands,
    Cycle,
    GRAINS_PER_MM,
    NOTCHES_PER_KM_H,
    Situation,
    Stop,
    Supervisor,
    Target,
    Zone,
    restriction_zone,
    static_zones,
)
from sdm.why import LIMITS as FIELDS
from sdm.why import command_lines, force_lines, section, situation_lines, trigger_lines

READING = ["time", "est", "min", "max", "speed", "accel", "under"]
WORDS = ["state", "status", "tco", "sb", "eb", "covered"]  # columns of a row with a letter each
NUMBERS = ["ceiling", *LIMITS]
# The columns that are kept as what they are more than another one.
BASES = {"min": "est", "max": "est", **dict(zip(LIMITS[1:], LIMITS))}
Json = dict[str, Any]


def steps_of(values: Iterable[int | None]) -> list[int | None]:
    """The steps from each value to the next, the first one from 0; a value that is None is passed over."""
    last = 0
    found: list[int | None] = []
    for value in values:
        found.append(None if value is None else value - last)
        last = last if value is None else value
    return found


def columns_of(values: dict[str, list[int | None]]) -> dict[str, list[int | None]]:
    """Columns as they are kept: as steps, of what a column is more than its base; a base that is None counts as 0."""
    kept = {}
    for name, column in values.items():
        bases = values[BASES[name]] if name in BASES else [0] * len(column)
        kept[name] = steps_of(
            None if value is None else value - (base or 0) for value, base in zip(column, bases, strict=True)
        )
    return kept


class Texts:
    """Texts, each kept once, and the number of the text of each reading."""

    def __init__(self) -> None:
        self.numbers: dict[str, int] = {}
        self.at: list[int] = []

    def add(self, text: str) -> None:
        self.at.append(self.numbers.setdefault(text, len(self.numbers)))

    def json(self) -> Json:
        return {"texts": list(self.numbers), "at": steps_of(self.at)}


class Sets:
    """The sets of targets that counted, and how often each acceleration and under-reading amount came with each."""

    def __init__(self) -> None:
        self.numbers: dict[tuple[Target, ...], int] = {}
        self.at: list[int] = []
        self.events: list[exact.Reading] = []
        self.common: list[collections.Counter[tuple[int, int]]] = []

    def add(self, cycle: Cycle) -> None:
        reading = cycle.situation.reading
        targets = tuple(each.target for each in cycle.situation.targets)
        number = self.numbers.setdefault(targets, len(self.numbers))
        if number == len(self.events):
            self.events.append(reading)
            self.common.append(collections.Counter())
        self.common[number][reading.accel, reading.under] += 1
        self.at.append(number)

    def json(self, supervisor: Supervisor, highest_kmh: float) -> Json:
        """The curves of each set, by the acceleration and the under-reading amount that most of its readings have."""
        drawn = []
        for targets, event, common in zip(self.numbers, self.events, self.common):
            (accel, under), _ = common.most_common(1)[0]
            probe = event._replace(accel=accel, under=under)
            lines = [
                [name, steps_of(round(100 * m) for m, _ in line), steps_of(round(1000 * kmh) for _, kmh in line)]
                for name, line in set_lines(supervisor, targets, probe, highest_kmh)
            ]
            drawn.append({"accel": accel, "under": under, "lines": lines})
        return {"sets": drawn, "at": steps_of(self.at)}


class Told:
    """What the walk through an input's records tells of each reading, and what was in force meanwhile."""

    def __init__(self, source: bytes) -> None:
        self.walk = Walk(source)
        self.supervisor = self.walk.supervisor
        self.readings: list[exact.Reading] = []
        self.rows: list[str] = []  # the model's
        self.release: list[int | None] = []  # km/h
        self.force, self.causes, self.counting, self.sets = Texts(), Texts(), Texts(), Sets()
        self.authorities = [Held(self.supervisor.authority, 0)]
        self.restrictions: list[Held[Zone]] = []
        self.in_force: dict[int, Held[Zone]] = {}
        self.starts: list[Held[DrawnEnd]] = []  # of release speed monitoring
        self._force = (self.supervisor.authority, "")
        before = self.supervisor.commands
        for event, cycle in self.walk:
            self.take(event, cycle, before)
            before = self.supervisor.commands

    def take(self, event: exact.Event, cycle: Cycle | None, before: Commands) -> None:
        """Takes a record that was accepted."""
        now = len(self.readings)
        if cycle is not None:
            self.take_reading(cycle, before)
            return
        self._force = (self.supervisor.authority, "")
        if self.supervisor.authority is not self.authorities[-1].what:
            self.authorities[-1].until = now
            self.authorities.append(Held(self.supervisor.authority, now))
        elif isinstance(event, exact.Restriction):
            self.in_force[event.identity] = Held(restriction_zone(self.supervisor.data, event), now)
            self.restrictions.append(self.in_force[event.identity])
        elif isinstance(event, exact.Revocation):
            self.in_force.pop(event.identity).until = now

    def take_reading(self, cycle: Cycle, before: Commands) -> None:
        """Takes a reading with all that it led to."""
        self.take_start(cycle.situation)
        self.readings.append(cycle.situation.reading)
        self.rows.append(cycle.row.text().rstrip("\n"))
        self.release.append(release_of(cycle.situation))
        if not self._force[1]:
            self._force = (self.supervisor.authority, "\n".join(force_lines(self.supervisor)))
        self.force.add(self._force[1])
        self.causes.add("\n".join(cause_lines(cycle, before)))
        self.counting.add("\n".join(counting_of(cycle.situation)))
        self.sets.add(cycle)

    def take_start(self, situation: Situation) -> None:
        """Notes where release speed monitoring starts, once for as long as it stands."""
        if situation.release_start is None:
            return
        now, mm = len(self.readings), situation.release_start / GRAINS_PER_MM
        end = DrawnEnd("start of R", float(mm / 1000))
        if self.starts and self.starts[-1].what == end and self.starts[-1].until == now:
            self.starts[-1].until = now + 1
        else:
            self.starts.append(Held(end, now, now + 1))


def cause_lines(cycle: Cycle, before: Commands) -> list[str]:
    """Why a row is as it is: what it was decided on, the causes of the triggers, and the rule of each command."""
    return (
        section("decided on", situation_lines(cycle.situation))
        + section("triggers", trigger_lines(cycle))
        + section("commands", command_lines(cycle, before))
    )


def counting_of(situation: Situation) -> list[str]:
    """The targets that the places of a row are of, a line for each limit; empty where there is none."""
    V, lines = situation.reading.V_est, []
    slower = [each for each in situation.targets if each.target.V_target * NOTCHES_PER_KM_H <= V]
    for field in FIELDS.values():
        there = [each for each in slower if getattr(each, field) is not None]
        least = min((getattr(each, field) for each in there), default=None)
        lines.append(", ".join(short(each.target) for each in there if getattr(each, field) == least))
    return lines


def held_json(helds: Sequence[Held[Any]], count: int) -> list[list[Any]]:
    """What is held, each with the readings that it counts for; what counts for none is left out."""
    spans = [(held.what, held.since, min(held.until, count)) for held in helds]
    return [[*what_json(what), since, until] for what, since, until in spans if since < until]


def what_json(what: Hashable) -> list[Any]:
    """The values of what is held: of an end its name and mm, of a zone its km/h, and its ends in mm or None."""
    if isinstance(what, DrawnEnd):
        return [what.name, round(1000 * what.place)]
    assert isinstance(what, Zone), "nothing else is held"
    return [what.speed, *(None if math.isinf(cm) else round(10 * cm) for cm in (what.start, what.end))]


def track_json(supervisor: Supervisor) -> Json:
    """What the data part tells of the track: the profile as steps, gradients in per mille, areas; places in mm."""
    data = supervisor.data
    zones = [Zone(data.train.max_speed, -math.inf, math.inf), *static_zones(data)]
    return {
        "profile": [[None if math.isinf(cm) else round(10 * cm), kmh] for cm, kmh in steps(zones)],
        "gradients": [[10 * entry.start, entry.grad / 10] for entry in data.track.gradient],
        "adhesion": [[10 * area.start, 10 * area.end] for area in data.track.adhesion],
        "no_special": [[10 * area.start, 10 * area.end] for area in data.track.no_special],
    }


def highest(readings: Sequence[exact.Reading], rows: Sequence[RowTexts]) -> float:
    """The greatest speed that the plot has room for, in km/h: what the train comes to, and the ceilings near it."""
    fastest = max(float(each.speed) for each in readings) * 0.0036
    tops = {int(row["ceiling"]) for row in rows}
    return max([1.2 * fastest, 10, *(1.12 * top for top in tops if top <= 1.6 * fastest)])


def release_of(situation: Situation) -> int | None:
    """The release speed in km/h, of a reading in release speed monitoring."""
    authority = situation.authority
    return authority.release if situation.in_release and isinstance(authority, Stop) else None


def columns_json(readings: Sequence[exact.Reading], rows: Sequence[RowTexts]) -> Json:
    """The columns of the readings and of the rows."""
    words = {name: "".join(row[name] for row in rows) for name in WORDS}
    numbers = {name: [None if row[name] == "-" else int(row[name]) for row in rows] for name in NUMBERS}
    return {
        "reading": columns_of({name: [getattr(each, name) for each in readings] for name in READING}),
        "row": {**words, **columns_of(numbers)},
        "bases": BASES,
    }


def refuse_others(readings: Sequence[exact.Reading], rows: Sequence[RowTexts], fault: str) -> None:
    """Refuses rows that are not those of the readings."""
    counted(rows, len(readings), fault)
    for n, (reading, row) in enumerate(zip(readings, rows), 1):
        if int(row["time"]) != reading.time:
            raise Fault(
                f"The rows are not those of the input: row {n} has the time {row['time']}, its reading {reading.time}."
            )


def journey_json(told: Told, rows: Sequence[RowTexts]) -> Json:
    """A journey with the rows that were written for it. Raises Fault where these are not those of its readings."""
    refuse_others(told.readings, rows, told.walk.fault)
    count, top = len(rows), highest(told.readings, rows)
    return {
        "count": count,
        "top": round(top),
        **columns_json(told.readings, rows),
        "force": told.force.json(),
        "causes": told.causes.json(),
        "counting": told.counting.json(),
        "release": steps_of(told.release),
        "differs": [n for n, (row, own) in enumerate(zip(rows, told.rows)) if ",".join(row.values()) != own],
        "ends": held_json(ends_held(told.authorities) + told.starts, count),
        "restrictions": held_json(told.restrictions, count),
        "track": track_json(told.supervisor),
        "curves": told.sets.json(told.supervisor, top),
        "names": COLUMNS,
    }
