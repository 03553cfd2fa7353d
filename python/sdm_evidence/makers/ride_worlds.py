"""What rides go over, made from a random generator: worlds and scenarios, as c/rides.c reads them.

A world is one data part or several with what comes from the trackside at which time. A scenario is a ride over it: the
train, its driver, odometer and delays. Decelerations and foot speeds are the model's. """
from __future__ import annotations

from collections.abc import Iterable
from random import Random
from typing import NamedTuple

from sdm_evidence.model.data import Authority, Data, Limit, Stop, Table, data_of
from sdm_evidence.model.decelerations import Brake
from sdm_evidence.makers.documents import SPEEDS, a_document, a_grad, a_train, some_areas, some_starts
from sdm_evidence.model.drive import up
from sdm_evidence.model.journey import Supervisor
from sdm_evidence.makers.journeys import record
from sdm_evidence.model.limits import Target, Times
from sdm_evidence.model.outcome import Refused
from sdm_evidence.model.records import Calculated, Event, Restriction, Revocation
from sdm_evidence.model.speeds import falls
from sdm_evidence.makers.toml_text import toml
from sdm_evidence.model.units import NOTCHES_PER_MM_S

DURATION_DS = (300, 1_200)
AT_FULL_POWER, DRIVERS = 0, 4  # enum driver of c/ride.h, without those for a release speed
BY_ROWS, BY_RELEASE, GUARDED = 0, 1, 2  # enum judging


class Happening(NamedTuple):
    """What comes from the trackside at a time, and the falls of the MRSP once it is taken or refused."""

    time_ds: int
    event: Event  # of a change of data the authority that comes with them
    falls: list[tuple[int, int]]  # cm, km/h
    ground: int = 0  # the data that are changed to; 0 where none are
    has_trip: bool = False  # of an authority: its release speed has a trip place


class Ground(NamedTuple):
    """A data part of a supervisor, and what is true of the train under it."""

    document: Table
    data: Data
    brake: Brake
    times: Times


def ground_of(document: Table, supervisor: Supervisor) -> Ground:
    """The ground of a data part over which a supervisor was opened."""
    return Ground(document, supervisor.data, supervisor.curves.brakes["safe"], supervisor.times)


class World(NamedTuple):
    """The first happening is the opening's authority once more. Rides begin at the place, at most with the speed."""

    grounds: list[Ground]
    happenings: list[Happening]
    place_mm: int
    speed_mm_s: int

    def held(self) -> tuple[int, int]:
        """T_traction and T_traction + T_berem, in ds: the least of all grounds, which a ride's delays keep."""
        times = [ground.times for ground in self.grounds]
        return min(each.T_traction for each in times), min(each.T_traction + each.T_berem for each in times)


class Delays(NamedTuple):
    """The times of the computer and the train, in ds (docs/INTEGRATION.md, "Which times to hand in")."""

    period: int
    latency: int
    cut_off: int
    build_up: int


class Scenario(NamedTuple):
    """struct scenario of c/ride.h, field by field in its order."""

    seed: int
    ticks_per_ds: int
    duration_ds: int
    period_ds: int
    latency_ds: int
    cut_off_ds: int
    build_up_ds: int
    is_regular: bool
    missing_per_mille: int
    place_mm: int
    speed_mm_s: int
    driver: int
    power_cm_s2: int
    service_cm_s2: int
    obeys_service: bool
    stronger_per_mille: int
    ahead_mm: int
    behind_mm: int
    under_mm_s: int
    fast_mm_s: int
    gain_cm_s2: int
    judging: int = BY_ROWS
    width_mm: int = 0
    excess: int = 0
    is_judged_late: bool = False
    repeats_per_mille: int = 0
    is_widest: bool = False
    ignored: int = 0
    judges_repeated: bool = False
    short_mm: int = 0
    slow_mm_s: int = 0
    gains_cm_s2: int = 0
    is_uncut: bool = False
    weaker_per_mille: int = 0


# ---- data parts


def a_riding_train(rng: Random, version: int) -> Table:
    """A train of any bands whose times leave room for delays."""
    train = a_train(rng, rng.random() < 0.3, version)
    with_interface, traction = rng.random() < 0.25, rng.randint(2, 40)
    # T_traction is what an interface leaves of the cut-off time: less T_warning and, in use, T_bs.
    before = 20 + train["service_time"] if with_interface else 0
    return train | {
        "length": rng.choice([1, 2_000, 10_000, 20_000, 40_000]),
        "traction_cutoff_interface": with_interface,
        "traction_cutoff_time": traction + before,
        "emergency_time": traction + rng.randint(0, 40),
    }


def a_riding_track(rng: Random, train_length: int, version: int) -> Table:
    """Six to twenty kilometres, with what a track may have."""
    length, steep = rng.choice([600_000, 1_200_000, 2_000_000]), rng.choice([0, 2, 5, 10, 25])
    speeds = some_starts(rng, rng.choice([0, 1, 3, 6]), length, train_length)
    gradients = some_starts(rng, rng.choice([0, 1, 3, 8]), length, train_length)
    track = {
        "length": length,
        "speed": [
            {"start": start, "speed": rng.choice(SPEEDS[12:]), "delayed": rng.random() < 0.4} for start in speeds
        ],
        "gradient": [{"start": start, "grad": rng.choice([0, a_grad(rng, steep, version)])} for start in gradients],
        "adhesion": some_areas(rng, length, train_length) if rng.random() < 0.5 else [],
    }
    return track if version == 1 else track | {"no_special": some_areas(rng, length, train_length)}


# ---- what comes from the trackside


def loss_of(slope: int, brake: Brake) -> int:
    """How many notches a train loses in a ds by a slope, rounded up."""
    return up(27 * slope, 10**7 * brake.q)


def a_braking_cm(supervisor: Supervisor, speed_mm_s: int) -> int:
    """About how far a train runs that is braked from a speed, by the weakest of its decelerations."""
    brake, times = supervisor.curves.brakes["safe"], supervisor.times
    loss = min(loss_of(slope, brake) for slopes in brake.slopes for slope in slopes)
    until_braked_mm = speed_mm_s * (times.T_traction + times.T_berem) // 10
    return (until_braked_mm + NOTCHES_PER_MM_S * speed_mm_s**2 // (20 * loss)) // 10


def an_authority(rng: Random, length: int, from_cm: int) -> Authority:
    """An authority from a place on, mostly to an end without a release speed."""
    end = min(from_cm + rng.choice([0, rng.randint(0, 3_000), rng.randint(0, 40_000)]), length)
    if rng.random() < 0.1:
        return Limit(end, rng.choice(SPEEDS[12:30]))
    return Stop(end, min(end + rng.choice([0, 0, 1, 5_000, 20_000]), length), rng.choice([0, 0, 0, 0, 15, 30]))


def an_event(rng: Random, supervisor: Supervisor, from_cm: int) -> Event:
    """What the trackside may send; now and then an authority that is refused."""
    length, held = supervisor.data.track.length, list(supervisor.restrictions)
    kind = rng.random()
    if kind < 0.1:
        return Stop(length, length + 1, 0)
    if kind < 0.2:
        end = min(from_cm + rng.randint(0, 80_000), length)
        svl = min(end + rng.randint(1, 20_000), length)
        return Calculated(end, svl, rng.randint(end, svl))
    if kind < 0.6:
        return an_authority(rng, length, from_cm)
    if held and kind < 0.75:
        return Revocation(rng.choice(held))
    start = min(from_cm + rng.randint(0, 200_000), length - 1)
    end = min(start + rng.randint(1, 100_000), length)
    identity = max(held, default=0) + 1
    return Restriction(identity, start, end, rng.choice(SPEEDS[8:30]), rng.choice([0, 1]))


def happenings_of(rng: Random, supervisor: Supervisor, from_cm: int) -> list[Happening]:
    """The opening's authority once more, and then what comes at random times."""
    found = [Happening(0, supervisor.data.authority, falls(supervisor.profile))]
    for time in sorted(rng.randint(0, DURATION_DS[1]) for _ in range(rng.choice([0, 0, 1, 3, 8]))):
        event = an_event(rng, supervisor, from_cm)
        try:
            supervisor.take(event)
        except Refused:
            pass
        found.append(Happening(time, event, falls(supervisor.profile)))
    return found


def a_world(rng: Random) -> World:
    """A world whose opening isn't refused, and whose traction time leaves room for a period."""
    version = rng.choice([1, 2])
    while True:
        train = a_riding_train(rng, version)
        track = a_riding_track(rng, train["length"], version)
        document = a_document(rng, version) | {"train": train, "track": track}
        document["authority"] = {"kind": "end", "eoa": track["length"], "svl": track["length"]}
        try:
            supervisor = Supervisor(data_of(document))
        except Refused:
            continue
        if supervisor.times.T_traction > 0:
            return a_world_of(rng, document, supervisor)


def a_world_of(rng: Random, document: Table, supervisor: Supervisor) -> World:
    """A world over a data part, in which the first authority ends about where the train can stop."""
    data, length = supervisor.data, supervisor.data.track.length
    place = rng.choice([0, rng.randrange(length // 2)])
    fastest = min([data.train.max_speed] + [entry.speed for entry in data.track.speed if entry.start <= place][-1:])
    speed = rng.randint(0, fastest * 250)
    first = an_authority(rng, length, place + a_braking_cm(supervisor, speed))
    data = data._replace(authority=first)
    supervisor = Supervisor(data)
    document["authority"] = {"kind": "limit" if isinstance(first, Limit) else "end"} | first._asdict()
    happenings = happenings_of(rng, supervisor, place + a_braking_cm(supervisor, speed))
    return World([ground_of(document, supervisor)], happenings, place * 10, speed)


# ---- scenarios


def delays_of(rng: Random, held: tuple[int, int], is_tight: bool, late: int) -> Delays:
    """Delays that T_traction and T_traction + T_berem hold, with nothing left over where they are tight. Where the
    brake is to be late, it builds up by so many ds later than they hold."""
    traction, whole = held
    period = rng.randint(1, min(traction, 10))
    latency = rng.randint(0, min(traction - period, 5))
    cut_off, build_up = traction - period - latency, whole - period - latency
    if not is_tight:
        cut_off = rng.randint(0, cut_off)
    if not is_tight and not late:
        build_up = rng.randint(0, build_up)
    return Delays(period, latency, cut_off, build_up + late)


def a_scenario(rng: Random, world: World, late: int, ignored: int) -> Scenario:
    """A ride by the rows. Half of them are tight: a driver at full power, and nothing to spare by times, odometer and
    brake."""
    is_tight = rng.random() < 0.5

    def spare(most: int) -> int:
        return 0 if is_tight else rng.choice([0, rng.randint(0, most)])

    return Scenario(
        rng.getrandbits(62),
        rng.choice([1, 1, 2, 3, 5]),
        rng.randint(*DURATION_DS),
        *delays_of(rng, world.held(), is_tight or rng.random() < 0.3, late),
        is_regular=is_tight or rng.random() < 0.5,
        missing_per_mille=0 if is_tight else rng.choice([0, 0, 5, 50]),
        place_mm=world.place_mm + rng.randint(0, 20_000),
        speed_mm_s=world.speed_mm_s * rng.randint(50, 100) // 100,
        driver=AT_FULL_POWER if is_tight else rng.randrange(DRIVERS),
        power_cm_s2=rng.choice([10, 30, 60, 120]),
        service_cm_s2=rng.randint(20, 120),
        obeys_service=not is_tight and rng.random() < 0.5,
        stronger_per_mille=spare(500),
        ahead_mm=spare(20_000),
        behind_mm=rng.choice([0, 20_000]),
        under_mm_s=rng.choice([0, 500, rng.randint(0, 3_000)]),
        fast_mm_s=spare(1_000),
        gain_cm_s2=spare(30),
        is_judged_late=rng.random() < 0.5,
        repeats_per_mille=rng.choice([0, 0, 2]),
        ignored=ignored,
    )


# ---- as c/rides.c reads them


def numbers(values: Iterable[int]) -> str:
    """Numbers as a text; a flag is 0 or 1."""
    return " ".join(str(int(value)) for value in values)


def happening_text(happening: Happening) -> str:
    """The foot speeds are those of the targets that the falls and the end of the authority would be."""
    event, slow = happening.event, [(cm, Target("Mrsp", cm, speed).foot_speed) for cm, speed in happening.falls]
    end = Target("Loa", 0, event.speed).foot_speed if isinstance(event, Limit) else -1
    places = numbers(number for place in slow for number in place)
    begins = f"{happening.time_ds} {happening.ground} {','.join(record(event))}"
    return f"{begins} {end} {int(happening.has_trip)} {len(slow)} {places}\n"


def ground_text(ground: Ground) -> bytes:
    brake, times, data = ground.brake, ground.times, toml(ground.document, None).encode()
    losses = [loss_of(slope, brake) for slopes in brake.slopes for slope in slopes]
    inhibited = int(ground.data.national.inhibit_under_reading)
    lines = [
        f"{inhibited} {times.T_traction} {times.T_berem}",
        f"{len(brake.uppers) + 1} {len(brake.slopes)}",
        numbers([*brake.uppers, *brake.borders, *losses]),
    ]
    return f"{len(data)}\n".encode() + data + ("\n".join(lines) + "\n").encode()


def world_text(world: World) -> bytes:
    grounds = b"".join(map(ground_text, world.grounds))
    happenings = "".join(map(happening_text, world.happenings))
    return f"world {len(world.grounds)} ".encode() + grounds + f"{len(world.happenings)}\n{happenings}".encode()


def scenario_text(scenario: Scenario) -> bytes:
    return f"ride {numbers(scenario)}\n".encode()
