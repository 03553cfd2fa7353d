"""Readings whose rows aren't asked for, at a hundredth of what a row costs.

Such a reading counts for the later ones by what it leaves: commands, status and time. It is quiet where V_est is at
most the ceiling, where no front end is past the P of a slower target, and where the min safe front end isn't past the
EOA. Then none of over, warn, serv and emer holds, since W, SBI and EBI lie no nearer than P. So the commands follow
without a limit of its own. That a front end isn't past P is known from a higher speed, acceleration and under-reading
amount, at which P lies no later: those that are the same for many readings, so that their P is worked out once.
"""
from bisect import bisect_right

from sdm.exact import (
    Commands,
    Event,
    GRAINS_PER_CM,
    Limit,
    NOTCHES_PER_KM_H,
    Number,
    Reading,
    Refused,
    Supervisor,
    Target,
    ceiling,
    falls,
    no_margin,
    release_start,
)

SPEED, ACCEL, UNDER = 250, 10, 50  # what a reading's numbers are rounded up to: mm/s, cm/s², mm/s
FASTEST, MOST_ACCEL, MOST_UNDER = 138_888, 300, 10_000  # what they are at most


def rounded_up(reading: Reading) -> tuple[int, int, int]:
    """Speed, acceleration and under-reading amount of a reading and of many others near it, none of them lower."""
    accel = max(reading.accel, 0)
    return int(-(-reading.speed // SPEED) * SPEED), -(-accel // ACCEL) * ACCEL, -(-reading.under // UNDER) * UNDER


class Ahead:
    """A target with what its P lies behind: at any reading, and at readings that are rounded up."""

    def __init__(self, supervisor: Supervisor, target: Target) -> None:
        self.supervisor, self.target = supervisor, target
        self.slowest = target.speed_with(no_margin)  # in notches; up to it nothing is passed
        self.places: dict[tuple[int, int, int], Number] = {}
        self.earliest = self.place_at(Reading(0, 0, 0, 0, FASTEST, MOST_ACCEL, MOST_UNDER))

    def place_at(self, reading: Reading) -> Number:
        """The place of P at a reading."""
        return self.supervisor.limits(reading, self.target).d_P

    def counts(self, x: int, in_release: bool) -> bool:
        """Whether it is a target for a front end."""
        return self.target.place > x if self.target.kind == "Mrsp" else not (self.target.is_stop and in_release)

    def is_passed(self, x: int, rounded: tuple[int, int, int], reading: Reading) -> bool:
        """Whether a max safe front end is past P."""
        if rounded not in self.places:
            speed, accel, under = rounded
            self.places[rounded] = self.place_at(reading._replace(speed=speed, accel=accel, under=under))
        return x > self.places[rounded] and x > self.place_at(reading)


class Replay:
    """Takes the records of a supervisor. Its commands and its time are those that Supervisor.take leaves; its status is
    N where that may be I, which no later row depends on."""

    def __init__(self, supervisor: Supervisor) -> None:
        self.supervisor = supervisor
        self.ahead: dict[Target, Ahead] = {}
        self.renew()

    def take(self, event: Event) -> None:
        """A record, taken whole or refused as Supervisor.take does."""
        if not isinstance(event, Reading):
            self.supervisor.take(event)
            self.renew()
        elif self.is_quiet(event):
            self.leave(event)
        else:
            self.supervisor.take(event)

    def pass_by(self, reading: Reading) -> None:
        """A reading behind which no row is asked for: its time, and nothing else that it leaves."""
        if reading.time < self.supervisor.time:
            raise Refused("time back")
        self.supervisor.time = reading.time

    def renew(self) -> None:
        """What the authority and the restrictions in force lead to, for all readings under them."""
        supervisor, authority = self.supervisor, self.supervisor.authority
        self.release_start = release_start(supervisor.times, supervisor.curves, authority)
        if isinstance(authority, Limit):
            self.end = authority.loa
            targets = [Target("Loa", authority.loa * GRAINS_PER_CM, authority.speed)]
        else:
            self.end = authority.eoa
            ends = ("Eoa", authority.eoa), ("Svl", authority.svl)
            targets = [Target(kind, place * GRAINS_PER_CM, 0) for kind, place in ends]
        targets += [
            Target("Mrsp", cell * GRAINS_PER_CM, V) for cell, V in falls(supervisor.profile) if cell <= self.end
        ]
        self.ahead = {each: self.ahead.get(each) or Ahead(supervisor, each) for each in targets}
        self.by_place = sorted(self.ahead.values(), key=lambda each: each.earliest)
        self.earliest = [each.earliest for each in self.by_place]

    def is_quiet(self, reading: Reading) -> bool:
        """Whether none of over, warn, serv and emer holds at a reading; one may be quiet of which the answer is no."""
        supervisor, V, x = self.supervisor, reading.V_est, reading.front_end("max")
        authority = supervisor.authority
        if reading.time < supervisor.time or V > ceiling(supervisor.profile, reading) * NOTCHES_PER_KM_H:
            return False
        if not isinstance(authority, Limit) and reading.front_end("min") > self.end * GRAINS_PER_CM:
            return False
        in_release = self.release_start is not None and x > self.release_start
        if in_release and V > getattr(authority, "release") * NOTCHES_PER_KM_H:
            return False
        near = [each for each in self.by_place[: bisect_right(self.earliest, x)] if each.slowest < V]
        if not near:
            return True
        rounded = rounded_up(reading)
        return not any(each.counts(x, in_release) and each.is_passed(x, rounded, reading) for each in near)

    def leave(self, reading: Reading) -> None:
        """What a quiet reading leaves: over doesn't hold, so tco and sb are released, and eb by its own rule."""
        supervisor = self.supervisor
        released = reading.V_est == 0 or supervisor.data.national.early_release
        eb = supervisor.commands.eb and not released
        supervisor.time, supervisor.commands = reading.time, Commands(False, False, eb, "X" if eb else "N")
