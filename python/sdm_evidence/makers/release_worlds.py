"""What rides with release speeds and changes of data go over, made from a random generator (sdm_release_ride).

A world's readings keep two bounds in release speed monitoring, W of their width and U of what the train may gain, and
each release speed has a trip place by them: the place W past the EOA. Each premise can be broken (`Broken`).
"""
from __future__ import annotations

import copy
from bisect import bisect_left
from enum import Enum
from random import Random
from typing import NamedTuple

from sdm_evidence.makers.documents import a_document
from sdm_evidence.makers.ride_worlds import (
    BY_RELEASE,
    GUARDED,
    Ground,
    Happening,
    Scenario,
    World,
    a_braking_cm,
    a_riding_track,
    a_riding_train,
    delays_of,
    ground_of,
)
from sdm_evidence.model.data import Stop, Table, data_of
from sdm_evidence.model.journey import Supervisor
from sdm_evidence.model.limits import A_EST2_MOST, Times
from sdm_evidence.model.outcome import Outcome, Refused
from sdm_evidence.model.records import Restriction
from sdm_evidence.model.release import calculated
from sdm_evidence.model.speeds import falls
from sdm_evidence.model.units import NOTCHES_PER_KM_H, NOTCHES_PER_MM_S

CREEPING, SURGING = 4, 5  # enum driver of c/ride.h
DURATION_DS = (1_200, 2_400)
MOST_ACCEL = 300
FURTHEST_CM = 50_000  # of an SvL behind its EOA


class Broken(Enum):
    """Which premise of a ride with a release speed is broken."""

    NONE = "none"
    LATE = "late"  # the brake works a ds later than the times hold
    IGNORED = "ignored"  # the first order isn't handed on
    FRONT = "front"  # the max safe front end lies 2 m behind the true one
    SPEED = "speed"  # the true speed is 1 m/s above what a reading allows
    GAIN = "gain"  # the train gains 1 m/s2 more than its reading says
    UNCUT = "uncut"  # the traction works until the brake does
    WEAK = "weak"  # the brake gives a tenth less than A_safe
    REPEATED = "repeated"  # readings that repeat the time of the last one are judged
    WIDE = "wide"  # readings are wider than W
    FAST = "fast"  # the train may gain more than U
    TRIP = "trip"  # a release speed is 10 km/h above what has a trip place
    TRACTION = "traction"  # T_traction is above T_be
    OLD_DATA = "old-data"  # after a change of data trip places are those of the first data


class Odometer(NamedTuple):
    """How far readings of a world are off, at most, and what its train may gain."""

    ahead_mm: int
    behind_mm: int
    under_mm_s: int
    power_cm_s2: int
    gain_cm_s2: int

    def width_mm(self) -> int:
        """W in mm: front ends are rounded to a millimetre each."""
        return self.ahead_mm + self.behind_mm + 2

    def excess(self, times: Times, is_inhibited: bool) -> int:
        """U in notches: V_delta0, and what the train gains until its brake works."""
        accel = min(self.power_cm_s2 + self.gain_cm_s2, MOST_ACCEL)
        gained = accel * times.T_traction + min(accel, A_EST2_MOST) * times.T_berem
        return NOTCHES_PER_MM_S * ((0 if is_inhibited else self.under_mm_s) + gained)


class ReleaseWorld(NamedTuple):
    """A world with the odometer that its release speeds are chosen for."""

    world: World
    odometer: Odometer
    excess: int


# ---- release speeds


def excess_over(odometer: Odometer, supervisor: Supervisor) -> int:
    """U of readings under a supervisor."""
    return odometer.excess(supervisor.times, supervisor.data.national.inhibit_under_reading)


def whole(odometer: Odometer, supervisor: Supervisor) -> Odometer:
    """The same with as much more under-reading as brings U just up to a whole number of km/h, if it counts."""
    excess = excess_over(odometer, supervisor)
    most = -(-excess // NOTCHES_PER_KM_H) * NOTCHES_PER_KM_H
    return odometer._replace(under_mm_s=odometer.under_mm_s + (most - excess) // NOTCHES_PER_MM_S)


def greatest_release(supervisor: Supervisor, odometer: Odometer, excess: int, eoa: int, svl: int) -> int:
    """The greatest release speed in km/h that has its trip place W past the EOA; below 0 where none has."""
    trip = eoa + -(-odometer.width_mm() // 10)
    if trip > svl:
        return -1
    T_be = supervisor.data.train.emergency_time
    return calculated(supervisor.curves, T_be, svl, trip) - -(-excess // NOTCHES_PER_KM_H)


def least_svl(supervisor: Supervisor, odometer: Odometer, excess: int, eoa: int, release: int) -> int | None:
    """The nearest SvL in cm with which a release speed in km/h has its trip place, if the track has one."""
    first = eoa + -(-odometer.width_mm() // 10)

    def has_trip(svl: int) -> bool:
        return greatest_release(supervisor, odometer, excess, eoa, svl) >= release

    svls = range(first, min(first + FURTHEST_CM, supervisor.data.track.length))
    svl = first + bisect_left(svls, True, key=has_trip)
    return svl if svl in svls else None


def a_stop(rng: Random, supervisor: Supervisor, odometer: Odometer, eoa: int, more_kmh: int) -> Stop | None:
    """A stop at an EOA whose release speed has a trip place, or is so much above one that has: mostly its SvL is the
    nearest for that speed."""
    excess, release = excess_over(odometer, supervisor), rng.randint(5, 60 - more_kmh)
    svl = least_svl(supervisor, odometer, excess, eoa, release)
    if svl is None:
        return None
    further = 0 if rng.random() < 0.7 else rng.randint(0, 2_000)
    return Stop(eoa, min(svl + further, supervisor.data.track.length), release + more_kmh)


# ---- data parts


def opened(document: Table) -> Supervisor | None:
    """The supervisor over data; none where they are refused."""
    try:
        return Supervisor(data_of(document))
    except (Refused, Outcome):
        return None


def a_first_document(rng: Random, broken: Broken) -> Table:
    """Data of a train whose T_traction is at most T_be, but where that is broken."""
    version = rng.choice([1, 2])
    train = a_riding_train(rng, version)
    before = 20 + train["service_time"] if train["traction_cutoff_interface"] else 0
    traction = train["traction_cutoff_time"] - before
    if broken is Broken.TRACTION:
        train["emergency_time"] = rng.randint(0, max(traction - 1, 0) // 2)
    track = a_riding_track(rng, train["length"], version)
    document = a_document(rng, version) | {"train": train, "track": track}
    document["authority"] = {"kind": "end", "eoa": track["length"], "svl": track["length"]}
    return document


def a_next_document(rng: Random, document: Table, broken: Broken) -> Table:
    """The same track with other brakes and times. The under-reading is inhibited as before, so that a reading which is
    judged after the change is true under both."""
    found = copy.deepcopy(document)
    for band in found["train"]["band"]:
        for name in ("emergency", "service", "normal"):
            band[name] = max(1, band[name] * rng.randint(60, 120) // 100)
        if "emergency_reduced" in band:
            band["emergency_reduced"] = min(band["emergency_reduced"], band["emergency"])
    later = 100 if broken is Broken.OLD_DATA else rng.randint(0, 20)
    found["train"]["emergency_time"] = min(found["train"]["emergency_time"] + later, 300)
    return found


# ---- worlds


def a_start(rng: Random, supervisor: Supervisor, odometer: Odometer, stop: Stop) -> tuple[int, int]:
    """Where a ride begins, in cm, and its greatest speed in mm/s. Its estimate is the release speed, and from there it
    can brake before the EOA."""
    under = 0 if supervisor.data.national.inhibit_under_reading else odometer.under_mm_s
    speed = stop.release * NOTCHES_PER_KM_H // NOTCHES_PER_MM_S + under
    return stop.eoa - a_braking_cm(supervisor, speed) - rng.randint(1_000, 20_000), speed


def changed(
    rng: Random, first: tuple[Table, Supervisor], odometer: Odometer, stop: Stop, broken: Broken
) -> tuple[Table, Supervisor, Happening] | None:
    """A change of data some time on the way, with an authority at the same EOA or further on; none where it is
    refused or no release speed has a trip place."""
    document, before = first
    document = a_next_document(rng, document, broken)
    eoa = stop.eoa + rng.choice([0, 0, rng.randint(0, 3_000)])
    document["authority"] = {"kind": "end", "eoa": eoa, "svl": eoa}
    supervisor = opened(document) if eoa < before.data.track.length else None
    if supervisor is None:
        return None
    judged = before if broken is Broken.OLD_DATA else supervisor
    authority = a_stop(rng, judged, odometer, eoa, 0)
    if authority is None:
        return None
    document["authority"] = {"kind": "end"} | authority._asdict()
    supervisor = opened(document)
    if supervisor is None:
        return None
    supervisor.take_over(before)
    return document, supervisor, Happening(rng.randint(50, 600), authority, falls(supervisor.profile), 1, True)


def a_restriction(rng: Random, supervisor: Supervisor, place: int) -> Happening:
    """A restriction somewhere ahead."""
    start = min(place + rng.randint(0, 30_000), supervisor.data.track.length - 1_001)
    event = Restriction(1, start, start + rng.randint(1, 1_000), rng.choice([40, 60, 80]), 0)
    supervisor.take(event)
    return Happening(rng.randint(1, 40), event, falls(supervisor.profile))


def a_release_world(rng: Random, broken: Broken) -> ReleaseWorld:
    """A world with one stop, now and then a restriction, and mostly a change of data."""
    while True:
        document = a_first_document(rng, broken)
        supervisor = opened(document)
        odometer = Odometer(
            rng.choice([0, 500, 3_000]),
            rng.choice([0, 500, 3_000]),
            rng.choice([0, 200, 500]),
            200 if broken is Broken.UNCUT else rng.choice([1, 10, 30, 80]),
            0,
        )
        if supervisor is None or supervisor.times.T_traction == 0:
            continue
        if broken is not Broken.TRACTION and supervisor.times.T_traction > supervisor.data.train.emergency_time:
            continue
        odometer = whole(odometer, supervisor)
        eoa = rng.randrange(100_000, supervisor.data.track.length - 50_000)
        stop = a_stop(rng, supervisor, odometer, eoa, 10 if broken is Broken.TRIP else 0)
        if stop is None:
            continue
        document["authority"] = {"kind": "end"} | stop._asdict()
        supervisor = opened(document)
        if supervisor is not None:
            return a_world_at(rng, (document, supervisor), odometer, stop, broken)


def a_world_at(
    rng: Random, first: tuple[Table, Supervisor], odometer: Odometer, stop: Stop, broken: Broken
) -> ReleaseWorld:
    """The world of a stop."""
    document, supervisor = first
    place, speed = a_start(rng, supervisor, odometer, stop)
    grounds = [ground_of(document, supervisor)]
    happenings = [Happening(0, stop, falls(supervisor.profile), 0, True)]
    excess = excess_over(odometer, supervisor)
    if rng.random() < 0.3:
        happenings.append(a_restriction(rng, supervisor, place))
    change = changed(rng, first, odometer, stop, broken) if broken is Broken.OLD_DATA or rng.random() < 0.6 else None
    if change is not None:
        next_document, next_supervisor, happening = change
        grounds.append(Ground(*ground_of(next_document, next_supervisor)))
        happenings.append(happening)
        excess = max(excess, excess_over(odometer, next_supervisor))
    return ReleaseWorld(World(grounds, happenings, place * 10, speed), odometer, excess)


# ---- scenarios


def a_release_scenario(rng: Random, made: ReleaseWorld, broken: Broken) -> Scenario:
    """A ride whose driver creeps at the release speed. Most have nothing to spare: times, brake and odometer are as bad
    as they may be, and the driver takes full power after the last reading before the train is tripped."""
    world, odometer = made.world, made.odometer
    is_guarded = broken is Broken.NONE and rng.random() < 0.2
    late = 1 if broken is Broken.LATE else 0
    is_tight = broken is not Broken.NONE or rng.random() < 0.7
    wider = 5_000 if broken is Broken.WIDE else 0
    faster = 2_000 if broken is Broken.FAST else 0
    return Scenario(
        rng.getrandbits(62),
        rng.choice([1, 1, 2, 3]),
        rng.randint(*DURATION_DS),
        *delays_of(rng, world.held(), is_tight, late),
        is_regular=is_tight or rng.random() < 0.5,
        missing_per_mille=0 if is_tight else rng.choice([0, 5]),
        place_mm=world.place_mm + rng.randint(0, 2_000),
        speed_mm_s=world.speed_mm_s if is_tight else world.speed_mm_s * rng.randint(20, 100) // 100,
        driver=SURGING if is_tight else CREEPING,
        power_cm_s2=odometer.power_cm_s2,
        service_cm_s2=rng.randint(20, 120),
        obeys_service=True,
        stronger_per_mille=0 if is_tight else rng.choice([0, 300]),
        ahead_mm=odometer.ahead_mm,
        behind_mm=odometer.behind_mm + wider,
        under_mm_s=odometer.under_mm_s + faster,
        fast_mm_s=0 if is_tight else rng.choice([0, 300]),
        gain_cm_s2=odometer.gain_cm_s2,
        judging=GUARDED if is_guarded else BY_RELEASE,
        width_mm=odometer.width_mm(),
        excess=made.excess,
        is_judged_late=rng.random() < 0.5,
        is_widest=is_tight,
        repeats_per_mille=30 if broken is Broken.REPEATED else rng.choice([0, 0, 5]),
        ignored=1 if broken is Broken.IGNORED else 0,
        judges_repeated=broken is Broken.REPEATED,
        short_mm=2_000 if broken is Broken.FRONT else 0,
        slow_mm_s=1_000 if broken is Broken.SPEED else 0,
        gains_cm_s2=100 if broken is Broken.GAIN else 0,
        is_uncut=broken is Broken.UNCUT,
        weaker_per_mille=100 if broken is Broken.WEAK else 0,
    )
