"""What a diagnosis looks at: rows of a recording with their readings and what was in force, and what a hypothesis makes
of them.

A row is looked at by itself: with the authority and the restrictions in force at its reading, and with the commands and
the status that the recording has in the row before. So it takes no other row to work it out.
"""

from collections.abc import Iterator, Mapping, Sequence
from dataclasses import dataclass
from fractions import Fraction
from typing import Any, NamedTuple

from sdm.laboratory.events import events_of
from sdm.laboratory.program import Fault
from sdm.laboratory.rows import LIMITS, UNITS

from sdm.diagnosis.misread_commands import OF_COMMANDS
from sdm.diagnosis.misread_limits import OF_LIMITS
from sdm.diagnosis.misread_release import OF_RELEASE
from sdm.diagnosis.misread_times import OF_TIMES
from sdm.diagnosis.misread_track import OF_TRACK
from sdm.diagnosis.misread_triggers import OF_TRIGGERS
from sdm.diagnosis.model import Reread, data, decelerations, journey, outcome, records, reread, triggers
from sdm.diagnosis.numbers import (
    Changes,
    NumberPath,
    NumberValue,
    changed_data,
    changed_event,
    changed_reading,
    of,
    rules_of,
)
from sdm.diagnosis.rules import Misreading

MISREADINGS: dict[str, Misreading] = {
    **OF_TRACK,
    **OF_TIMES,
    **OF_LIMITS,
    **OF_RELEASE,
    **OF_TRIGGERS,
    **OF_COMMANDS,
}
CELLS = [*LIMITS, "ceiling", "state", "status", "tco", "sb", "eb"]  # the columns that a hypothesis is judged by
NUMERIC = range(6)  # of the cells those that are numbers
Cells = tuple[Any, ...]  # the values of a row in the order of CELLS
ABSENT = object()  # of a cell that the recording hasn't


class RuleCase(NamedTuple):
    """A hypothesis: rules that are read otherwise, by their names, and numbers that are others."""

    rules: tuple[str, ...] = ()
    numbers: Changes = ()

    def with_case(self, other: "RuleCase") -> "RuleCase":
        """Both together."""
        return RuleCase(self.rules + other.rules, self.numbers + other.numbers)

    def with_number(self, path: NumberPath, value: NumberValue) -> "RuleCase":
        return RuleCase(self.rules, (*self.numbers, (path, value)))


class Look(NamedTuple):
    """A row that is looked at: its number, its reading, the number of the authority in force with it, the restrictions
    with theirs, the commands before it, what the recording has, and of words all that it has near the time."""

    row: int
    reading: records.Reading
    authority: int
    restrictions: tuple[int, ...]
    before: triggers.Commands
    recorded: Cells
    near: tuple[frozenset[Any], ...]


@dataclass(frozen=True)
class Scene:
    """The data, the authorities and restrictions of a journey, the rows that are looked at, and what values may be
    apart, by the unit."""

    data: data.Data
    authorities: tuple[Any, ...]
    restrictions: tuple[Any, ...]
    looks: tuple[Look, ...]
    allowed: Mapping[str, Any]

    def with_looks(self, looks: Sequence[Look]) -> "Scene":
        return Scene(self.data, self.authorities, self.restrictions, tuple(looks), self.allowed)

    def agrees(self, look: Look, cells: Cells) -> list[bool]:
        """Of each cell, whether it is the recording's within the tolerances; a cell that it lacks is."""
        return [self.is_same(i, look, value) for i, value in enumerate(cells)]

    def is_same(self, i: int, look: Look, value: Any) -> bool:
        recorded = look.recorded[i]
        if recorded is ABSENT or value == recorded:
            return True
        if i in NUMERIC:
            return None not in (value, recorded) and abs(value - recorded) <= self.allowed[UNITS[CELLS[i]]]
        return value in look.near[i]


def predicted(scene: Scene, case: RuleCase) -> list[Cells] | None:
    """What a hypothesis makes of each row that is looked at; None where it can't be of these data."""
    rules = [rule for name in case.rules for rule in MISREADINGS[name].rules] + rules_of(case.numbers)
    if not any(rule.owner is decelerations for rule in rules):
        rules.append(Reread(journey, "brakes_of", kept))
    try:
        with reread(rules):
            return list(rows_of(scene, case))
    except (outcome.Refused, ArithmeticError, ValueError):
        return None


def kept(rule: Any) -> Any:
    """All slopes of data; those of the last data are kept, since most hypotheses change none."""

    def brakes_of(held: data.Data) -> Any:
        of = (held.train._replace(max_speed=0, traction_cutoff_time=0, emergency_time=0, service_time=0), held.national)
        key = (*of, held.track._replace(speed=(), length=0))
        if key not in _brakes:
            if len(_brakes) >= MOST_KEPT:
                _brakes.pop(next(iter(_brakes)))
            _brakes[key] = rule(held)
        return _brakes[key]

    return brakes_of


_brakes: dict[Any, Any] = {}
MOST_KEPT = 32


def rows_of(scene: Scene, case: RuleCase) -> Iterator[Cells]:
    """The rows by the rules that the model has now."""
    changes = case.numbers
    supervisor = journey.Supervisor(changed_data(scene.data, changes))
    authorities: dict[int, Any] = {}
    profiles: dict[tuple[int, ...], Any] = {}
    shift = Fraction(of(changes, "recorded").get(("shift",), 0))
    for look in scene.looks:
        if look.authority not in authorities:
            authorities[look.authority] = authority_of(scene, supervisor, look.authority, changes)
        if look.restrictions not in profiles:
            held = [changed_event(scene.restrictions[k], "restriction", k, changes) for k in look.restrictions]
            profiles[look.restrictions] = speeds_by(supervisor, held)
        supervisor.authority, supervisor.profile = authorities[look.authority], profiles[look.restrictions]
        supervisor.time, supervisor.commands = 0, look.before
        row = supervisor.read(changed_reading(look.reading, changes)).row
        now = row.commands
        places: list[Any] = [None if mm is None else mm + shift for mm in row.limits] if shift else list(row.limits)
        yield (*places, row.ceiling, row.state, now.status, str(int(now.tco)), str(int(now.sb)), str(int(now.eb)))


def authority_of(scene: Scene, supervisor: journey.Supervisor, number: int, changes: Changes) -> Any:
    """The authority of a number; a release speed to be calculated is calculated by the rules that the model has now."""
    event = changed_event(scene.authorities[number], "authority", number, changes)
    return supervisor.authority_of(event) if isinstance(event, records.Calculated) else event


def speeds_by(supervisor: journey.Supervisor, restrictions: Sequence[Any]) -> Any:
    return journey.__dict__["mrsp"](supervisor.data, restrictions)


class HeldReading(NamedTuple):
    """What is in force at a reading, by its numbers."""

    reading: records.Reading
    authority: int
    restrictions: tuple[int, ...]


class LookedJourney:
    """A journey record by record: its readings with what is in force at each. Raises Fault where it has no rows."""

    def __init__(self, source: bytes) -> None:
        try:
            table, events = data.split(source)
            self.data = data.data_of(data.read_document(table))
        except outcome.Outcome as fault:
            raise Fault(f"The input has no rows: {fault.line}.") from None
        self.authorities: list[Any] = [self.data.authority]
        self.restrictions: list[Any] = []
        self.readings: list[HeldReading] = []
        in_force: dict[int, int] = {}
        try:
            for event in events_of(events):
                self.take(event, in_force)
        except outcome.Refused:
            pass  # the rows up to it are there

    def take(self, event: Any, in_force: dict[int, int]) -> None:
        """A record, with the restrictions in force, by their identities."""
        if isinstance(event, records.Reading):
            held = tuple(sorted(in_force.values()))
            self.readings.append(HeldReading(event, len(self.authorities) - 1, held))
        elif isinstance(event, records.Restriction):
            in_force[event.identity] = len(self.restrictions)
            self.restrictions.append(event)
        elif isinstance(event, records.Revocation):
            in_force.pop(event.identity, None)
        else:
            self.authorities.append(event)


__all__ = [
    "ABSENT",
    "CELLS",
    "MISREADINGS",
    "NUMERIC",
    "RuleCase",
    "Cells",
    "LookedJourney",
    "Look",
    "Scene",
    "predicted",
]
