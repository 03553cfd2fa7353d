"""The journey (PROFILE "What a record does"): the supervisor, which takes record after record."""
from collections.abc import Iterator
from typing import NamedTuple

from sdm_evidence.model.curves import Curves
from sdm_evidence.model.data import Authority, Data, Stop
from sdm_evidence.model.decelerations import brakes_of, refuse_slopes
from sdm_evidence.model.limits import Situation, Target, TargetLimits, limits_of, targets_of, times_of
from sdm_evidence.model.outcome import Outcome, Refused
from sdm_evidence.model.records import Calculated, Event, Reading, Restriction, Revocation, event_of, records
from sdm_evidence.model.release import calculated, release_start
from sdm_evidence.model.rows import Row, row_of
from sdm_evidence.model.speeds import ceiling, mrsp
from sdm_evidence.model.triggers import NOTHING, Decision, Triggers, decide, triggers_of

MOST_RECORDS, MOST_RESTRICTIONS = 100_000, 32


class Cycle(NamedTuple):
    """All that a reading led to."""

    situation: Situation
    triggers: Triggers
    decision: Decision
    row: Row


def refuse_authority(data: Data, authority: Authority) -> None:
    """PROFILE "What a record does": `end`, `limit` and the opening's authority."""
    if isinstance(authority, Stop) and authority.svl < authority.eoa:
        raise Refused("supervised location before end")
    if (authority.svl if isinstance(authority, Stop) else authority.loa) > data.track.length:
        raise Refused("beyond track")


class Supervisor:
    """PROFILE "What a record does": holds data, authority, restrictions, last time, commands with the status."""

    def __init__(self, data: Data) -> None:
        """The opening, refused by its slopes first and then by its authority."""
        self.data, self.times, self.curves = data, times_of(data), Curves(brakes_of(data))
        for brake in self.curves.brakes.values():
            refuse_slopes(brake)
        refuse_authority(data, data.authority)
        self.authority, self.time, self.commands = data.authority, 0, NOTHING
        self.restrictions: dict[int, Restriction] = {}
        self.profile = mrsp(data, ())

    def take_over(self, before: "Supervisor") -> None:
        """PROFILE "A change of data": takes over what is kept from the supervisor that ran before."""
        if any(restriction.end > self.data.track.length for restriction in before.restrictions.values()):
            raise Refused("restriction value")
        self.restrictions = dict(before.restrictions)
        self.time, self.commands = before.time, before.commands
        self.profile = mrsp(self.data, self.restrictions.values())

    def take(self, event: Event) -> Cycle | None:
        """A record, taken whole or refused. A reading gives a Cycle, another record None."""
        if isinstance(event, Reading):
            return self.read(event)
        if isinstance(event, Restriction):
            self.restrict(event)
        elif isinstance(event, Revocation):
            if self.restrictions.pop(event.identity, None) is None:
                raise Refused("identity unknown")
        elif isinstance(event, Calculated):
            self.authority = self.authority_of(event)
        else:
            refuse_authority(self.data, event)
            self.authority = event
        self.profile = mrsp(self.data, self.restrictions.values())
        return None

    def authority_of(self, event: Calculated) -> Stop:
        """PROFILE "What a record does", `endcalc`: the authority to an end that it sets. It changes nothing."""
        authority = Stop(event.eoa, event.svl, 0)
        refuse_authority(self.data, authority)
        if event.trip < event.eoa or event.trip > event.svl:
            raise Refused("bad trip place")
        T_be = self.data.train.emergency_time
        return authority._replace(release=calculated(self.curves, T_be, event.svl, event.trip))

    def restrict(self, event: Restriction) -> None:
        """PROFILE "What a record does", `restrict`."""
        if len(self.restrictions) == MOST_RESTRICTIONS:
            raise Refused("too many restrictions")
        if event.identity in self.restrictions:
            raise Refused("identity in use")
        if event.end <= event.start or event.end > self.data.track.length:
            raise Refused("restriction value")
        self.restrictions[event.identity] = event

    def situation(self, reading: Reading, exact: bool = False) -> Situation:
        """What a reading would be decided on now, by stepped or exact limits; it is in release speed monitoring by the
        stepped start. It changes nothing."""
        start, M = release_start(self.times, self.curves, self.authority), ceiling(self.profile, reading)
        in_release = start is not None and reading.front_end("max") > start
        targets = [
            self.limits(reading, target, exact)
            for target in targets_of(self.profile, self.authority, reading, in_release)
        ]
        return Situation(reading, self.authority, self.times, M, start, in_release, targets)

    def limits(self, reading: Reading, target: Target, exact: bool = False) -> TargetLimits:
        """The limits of any target, stepped or exact, at a reading. It changes nothing."""
        return limits_of(self.data, self.times, self.curves, reading, target, exact)

    def read(self, reading: Reading) -> Cycle:
        """PROFILE "What a record does", `read`: decided by what is in force."""
        if reading.time < self.time:
            raise Refused("time back")
        situation = self.situation(reading)
        triggers = triggers_of(situation)
        decision = decide(self.data, situation, triggers, self.commands)
        self.time, self.commands = reading.time, decision.commands
        return Cycle(situation, triggers, decision, row_of(situation, decision))


def walk(supervisor: Supervisor, data: bytes) -> Iterator[tuple[Event, Cycle | None]]:
    """Each event behind the dividing line with its cycle, None of no reading, up to the first that is refused."""
    for number, fields in enumerate(records(data), 1):
        try:
            if number > MOST_RECORDS:
                raise Refused("too many events")
            event = event_of(fields)
            cycle = supervisor.take(event)
        except Refused as refused:
            raise Outcome(7, f"bad event {number}: {refused}") from None
        yield event, cycle


def cycles(supervisor: Supervisor, data: bytes) -> Iterator[Cycle]:
    return (cycle for _, cycle in walk(supervisor, data) if cycle is not None)
