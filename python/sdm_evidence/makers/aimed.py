"""Makes the records of a journey, each aimed at what the supervisor would decide, for journeys.py."""
from random import Random

from sdm_evidence.model.data import Limit, Stop
from sdm_evidence.makers.documents import SPEEDS
from sdm_evidence.model.journey import Cycle, Supervisor
from sdm_evidence.model.limits import Target
from sdm_evidence.model.records import Calculated, Event, Reading, Restriction, Revocation
from sdm_evidence.model.release import latest_trip
from sdm_evidence.model.speeds import dV_ebi, dV_sbi, dV_warning
from sdm_evidence.model.units import GRAINS_PER_CM, GRAINS_PER_MM, NOTCHES_PER_KM_H, NOTCHES_PER_MM_S, Number


class Maker:
    """Makes the events of a journey one by one, each aimed by what the supervisor would decide."""

    def __init__(self, rng: Random, supervisor: Supervisor) -> None:
        self.rng, self.supervisor = rng, supervisor
        self.events: list[Event] = []
        self.cycles: list[Cycle] = []
        self.place, self.time, self.accel, self.under = self.start(), 0, 0, 0

    def start(self) -> int:
        end = self.end_mm()
        return max(end - self.rng.choice([1_000_000, 300_000, 100_000, 2_000_000]), -50_000)

    def end_mm(self) -> int:
        authority = self.supervisor.authority
        return 10 * (authority.eoa if isinstance(authority, Stop) else authority.loa)

    def reading(
        self, max_mm: int | None = None, est_mm: int | None = None, min_mm: int | None = None, speed: int = 0
    ) -> Reading:
        """A reading with one front end where it is asked."""
        rng = self.rng
        ahead = rng.choice([0, 0, 0, 1, 9, 10, 5_000, rng.randint(0, 20_000)])
        behind = rng.choice([0, 0, ahead, ahead, 1, 5_000, rng.randint(0, 20_000)])
        est = est_mm
        if max_mm is not None:
            est = max_mm - ahead
        elif min_mm is not None:
            est = min_mm + behind
        elif est is None:
            est = self.place + rng.randint(-200, 20_000)

        def clamp(mm: int) -> int:
            return min(max(mm, -10_000_000), 110_000_000)

        self.time += rng.choice([0, 1, 5, 5, 10, 20])
        return Reading(
            self.time,
            clamp(est),
            clamp(est - behind),
            clamp(est + ahead),
            min(max(speed, 0), 138_888),
            self.accel,
            self.under,
        )

    def a_speed(self) -> int:
        """A speed in mm/s at which something changes, or one a millimetre a second beside it, or any."""
        rng, data = self.rng, self.supervisor.data
        limit = rng.choice([self.ceiling_here()] * 2 + [target.V_target for target in self.targets_here()])
        notches = limit * NOTCHES_PER_KM_H
        upper = rng.choice([band.upper for band in data.train.band if band.upper] or [limit]) * NOTCHES_PER_KM_H
        delta = (0 if data.national.inhibit_under_reading else self.under) * NOTCHES_PER_MM_S
        release = getattr(self.supervisor.authority, "release", 0) * NOTCHES_PER_KM_H
        aims = [
            notches,
            notches + dV_warning(limit),
            notches + dV_sbi(limit),
            notches + dV_ebi(limit),
            notches + dV_ebi(limit) - delta,
            upper,
            upper - delta,
            release,
            release,
        ]
        if rng.random() < 0.55:
            return rng.choice(aims) // NOTCHES_PER_MM_S + rng.choice([-1, 0, 0, 1, 1, 2])
        if rng.random() < 0.6:
            return rng.randint(0, limit * 2500 // 9)
        return rng.choice([1_000, 5_000, 10_000, 20_000, 25_000, 30_000, 40_000, rng.randint(0, 60_000)])

    def probe(self, speed: int) -> Reading:
        return Reading(
            self.time, self.place, self.place, self.place, min(max(speed, 0), 138_888), self.accel, self.under
        )

    def ceiling_here(self) -> int:
        return self.supervisor.situation(self.probe(0)).M

    def targets_here(self) -> list[Target]:
        return [each.target for each in self.supervisor.situation(self.probe(0)).targets]

    def at_a_limit(self) -> Reading:
        """A front end at a limit of a target, to the millimetre or one or some to a side."""
        rng, situation = self.rng, self.supervisor.situation(self.probe(0))
        if not situation.targets:
            return self.at_a_place()
        target, M = rng.choice(situation.targets).target, situation.M
        slow, fast = target.V_target * 2500 // 9 + 1, M * 2500 // 9
        if rng.random() < 0.65 and slow < fast:  # faster than the target, not over the ceiling
            speed = rng.choice([rng.randint(slow, fast), rng.randint(slow, fast) // 1000 * 1000, fast, slow])
        else:
            speed = self.a_speed()
        names = ["d_EBI", "d_SBI", "d_SBI", "d_W", "d_W", "d_P", "d_P", "d_P", "d_I"]
        if not target.is_stop and rng.random() < 0.12:  # V_bec at the foot speed
            self.accel, names = min(self.accel, 0), ["d_EBI"]
            under = 0 if self.supervisor.data.national.inhibit_under_reading else self.under
            speed = target.foot_speed // NOTCHES_PER_MM_S - under + rng.choice([-1, 0, 0, 0, 1])
        each = self.supervisor.limits(self.probe(speed), target)
        name = rng.choice(names)
        limit = getattr(each, name)
        limit = each.d_SBI if limit is None else limit
        if target.kind == "Svl" and self.supervisor.data.national.guidance and rng.random() < 0.3:
            limit = self.supervisor.curves.d_guide(target.place, 0, self.probe(speed).V_est)  # it has none
        mm = limit // GRAINS_PER_MM + rng.choice([-1, 0, 0, 1, 1, rng.randint(-500, 500)])
        return self.reading(**{f"{target.compared}_mm": mm}, speed=speed)

    def standing(self) -> Reading:
        """At standstill before the end of the authority: what is held is released."""
        before = self.end_mm() - self.rng.choice([1, 20_000, 100_000, 500_000])
        return self.reading(est_mm=min(self.place, before), speed=0)

    def at_a_grain(self) -> Reading:
        """A front end at an exact limit that is a whole millimetre, where the stepped one may be a grain before it."""
        rng, supervisor = self.rng, self.supervisor
        self.accel = self.under = 0
        targets, brake = self.targets_here(), supervisor.curves.brakes["safe"]
        if not targets:
            return self.at_a_place()
        target = rng.choice(targets)
        foot, pull = brake.square(target.foot_speed), 27 * brake.slopes[0][0] * GRAINS_PER_MM
        slow = target.V_target * 2500 // 9 + 1
        for _ in range(600):
            speed = rng.randint(slow, rng.choice([slow + 1_900, 70_000 + slow]))
            if (foot - brake.square(speed * NOTCHES_PER_MM_S)) % pull == 0:
                break
        each = supervisor.limits(self.probe(speed), target, exact=True)
        limit = rng.choice([each.d_EBI or each.d_SBI, each.d_SBI, each.d_P])
        mm = int(-(-limit // GRAINS_PER_MM)) + rng.choice([-1, 0, 0, 0, 1])
        return self.reading(**{f"{target.compared}_mm": mm}, speed=speed)

    def at_a_place(self) -> Reading:
        """A front end at a border: a fall or rise, the authority's ends, the start of release speed monitoring."""
        rng, supervisor = self.rng, self.supervisor
        start = supervisor.situation(self.probe(0)).release_start
        places = [10 * cell for cell in supervisor.profile.starts[-12:]] + [self.end_mm()] * 3
        places += [10 * getattr(supervisor.authority, "svl", 0)]
        if start is not None:
            places += [start // GRAINS_PER_MM] * 6
        mm = rng.choice(places) + rng.choice([-10, -1, -1, 0, 0, 0, 1, 1, 9, 10])
        return self.reading(**{rng.choice(["max_mm", "max_mm", "min_mm", "est_mm"]): mm}, speed=self.a_speed())

    def next_reading(self) -> Reading:
        rng = self.rng
        self.accel = rng.choice([0, 0, 0, -100, 40, 41, 39, 1, rng.randint(-300, 300)])
        self.under = rng.choice([0, 0, 500, 1, rng.randint(0, 3_000)])
        how = rng.random()
        if self.supervisor.commands.eb and rng.random() < 0.4:
            reading = self.standing()
        elif how < 0.6:
            reading = self.at_a_limit()
        elif how < 0.61:  # the ends of the ranges
            reading = self.reading(
                est_mm=rng.choice([-10_000_000, 110_000_000, -1, 0]), speed=rng.choice([138_888, 138_887, 0])
            )
        elif how < 0.76:
            reading = self.at_a_place()
        else:
            reading = self.reading(est_mm=self.place + rng.choice([0, 10, 1_000]), speed=self.a_speed())
        return reading

    def other_event(self) -> Event | None:
        """An authority, a restriction or a revocation that is accepted: near the train, so that it tells."""
        rng, supervisor = self.rng, self.supervisor
        length, held = supervisor.data.track.length, list(supervisor.restrictions)

        def near() -> int:
            ahead = rng.choice([0, 1, -100, 1_000, 20_000, 80_000, 150_000]) + rng.randint(-50, 500)
            return min(max(self.place // 10 + ahead, 0), length)

        what = rng.random()
        if what < 0.3:
            starts = [max(0, min(length, cell)) for cell in supervisor.profile.starts]
            eoa = rng.choice([near(), length, rng.choice(starts)])
            if rng.random() < 0.4:
                return self.a_calculated(eoa, min(length, eoa + rng.choice([0, 500, 3_000, 10_000, 40_000])))
            svl = min(length, eoa + rng.choice([0, 1, 3_000, 10_000]))
            return Stop(eoa, svl, rng.choice([0, 0, 9, 15, 18, 30]))
        if what < 0.45:
            return Limit(rng.choice([near(), length]), rng.choice(SPEEDS))
        if what < 0.6 and held:
            return Revocation(rng.choice(held))
        a, b = sorted([near(), near()])
        free = rng.choice([identity for identity in (1, 2, 3, 4, 7, 65_535, 0, rng.randint(0, 65_535))])
        if a == b or free in held or len(held) == 32:
            return None
        return Restriction(free, a, b, rng.choice(SPEEDS), rng.randint(0, 1))

    def a_calculated(self, eoa: int, svl: int) -> Calculated:
        """An authority with a trip place: an end of its range, any, or one that a speed just fits or doesn't."""
        rng, supervisor = self.rng, self.supervisor

        def last(v: int) -> Number:
            return latest_trip(supervisor.curves, supervisor.data.train.emergency_time, svl, v, exact=True)

        fitting = [v for v in range(1, 200) if last(v) >= eoa * GRAINS_PER_CM]
        if rng.random() < 0.3 or not fitting:
            return Calculated(eoa, svl, rng.choice([eoa, eoa, svl, rng.randint(eoa, svl)]))
        whole = [v for v in fitting if last(v) % GRAINS_PER_CM == 0]  # the stepped place may lie a grain before it
        trip = int(last(rng.choice(whole or fitting)) // GRAINS_PER_CM) + rng.choice([-1, 0, 0, 0, 1])
        return Calculated(eoa, svl, min(max(trip, eoa), svl))

    def add(self, event: Event | None) -> None:
        if event is None:
            return
        cycle = self.supervisor.take(event)
        self.events.append(event)
        if cycle is not None:
            self.cycles.append(cycle)
        if isinstance(event, Reading):
            self.place, self.time = event.est, event.time

    def make(self, count: int) -> list[Event]:
        rng = self.rng
        for _ in range(count):
            if rng.random() < 0.2:
                self.accel = self.under = 0
                self.add(self.other_event())
            self.add(self.next_reading())
            if rng.random() < 0.3:  # the train stays about there and is slower, so that it releases
                last = self.events[-1]
                assert isinstance(last, Reading)
                self.add(last._replace(time=last.time + 1, speed=max(0, last.speed * rng.choice([0, 5, 8, 9]) // 10)))
        return self.events
