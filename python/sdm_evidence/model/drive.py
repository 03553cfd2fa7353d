"""`drive` (PROFILE "A drive under the supervisor", FORMATS "`drive`"): a train that a number drives, read with errors,
and braked where the supervisor commands the emergency brake."""
from bisect import bisect_right
from typing import NamedTuple

from sdm_evidence.model.data import Data, Limit, Stop
from sdm_evidence.model.decelerations import Brake
from sdm_evidence.model.journey import Cycle, Supervisor
from sdm_evidence.model.limits import Situation
from sdm_evidence.model.outcome import Outcome
from sdm_evidence.model.records import Reading
from sdm_evidence.model.trial import number_after
from sdm_evidence.model.units import GRAINS_PER_CM, GRAINS_PER_MM, NOTCHES_PER_CM_S2_DS, NOTCHES_PER_MM_S, distance_at

STEP_TIME, LEAST_BUILD_UP = 5, 5  # ds
GREATEST_DRIVEN = 138_888 * NOTCHES_PER_MM_S  # notches


class TrueTrain(NamedTuple):
    """The true front end in grains, the true speed in notches."""

    place: int
    speed: int


class Orders(NamedTuple):
    """What a reading leads to: whether the emergency brake is commanded, from when on it works (ds, None while it
    isn't), whether the reading was within the SvL, and the acceleration of driving in cm/s²."""

    eb: bool
    onset: int | None
    within: bool
    accel: int


class Step(NamedTuple):
    """A reading with what it led to, the train until the next one, and how often it came to a stand."""

    cycle: Cycle
    train: TrueTrain
    stops: int


def up(a: int, b: int) -> int:
    """A quotient rounded up."""
    return -(-a // b)


def refuse_driving(data: Data) -> None:
    """PROFILE "A drive under the supervisor": what can't be driven."""
    if isinstance(data.authority, Limit):
        raise Outcome(9, "not drivable: no stop")
    if data.authority.release > 0:
        raise Outcome(9, "not drivable: release speed")
    if data.train.emergency_time < LEAST_BUILD_UP:
        raise Outcome(9, "not drivable: emergency time")


def is_within(situation: Situation) -> bool:
    """PROFILE "A drive under the supervisor": the reading is within the SvL."""
    (svl,) = (each for each in situation.targets if each.target.kind == "Svl")
    return bool(svl.x <= svl.d_EBI)


def reading_of(time: int, x: int, train: TrueTrain, inhibited: bool) -> Reading:
    """PROFILE "A drive under the supervisor", reading: what is read of the train by a number."""
    most = up(train.place, GRAINS_PER_MM) + x % 5_001
    if train.speed == 0:
        speed = 0
    elif inhibited:
        speed = up(train.speed, NOTCHES_PER_MM_S)
    else:
        speed = max(train.speed // NOTCHES_PER_MM_S - x % 500, 1)
    return Reading(time, most - 5_000, most - 10_000, most, speed, x % 61 - 20, 0 if inhibited else 500)


def greatest_slope(brake: Brake, place: int, far: int) -> int:
    """The greatest slope of any band in the cells from that of a place to that of one not before it, both included."""
    stretches = brake.slopes[bisect_right(brake.borders, place) : bisect_right(brake.borders, far) + 1]
    return max(max(slopes) for slopes in stretches)


def braked(brake: Brake, train: TrueTrain) -> TrueTrain:
    """PROFILE "A drive under the supervisor", braking, for 1 ds."""
    place, w = train
    slope = greatest_slope(brake, place, place + distance_at(w, 1))
    n = up(27 * slope, 10**7 * brake.q)
    if w >= n:
        return TrueTrain(place + (distance_at(w, 1) + distance_at(w - n, 1)) // 2, w - n)
    return TrueTrain(place + brake.square(w) // (27 * slope), 0)


def coasted(train: TrueTrain) -> TrueTrain:
    """PROFILE "A drive under the supervisor", coasting, for 1 ds."""
    return TrueTrain(train.place + distance_at(train.speed, 1), train.speed)


def driven(train: TrueTrain, accel: int) -> TrueTrain:
    """PROFILE "A drive under the supervisor", driving, for 1 ds."""
    speed = min(max(train.speed + NOTCHES_PER_CM_S2_DS * accel, 0), GREATEST_DRIVEN)
    return TrueTrain(train.place + distance_at(train.speed + speed, 1) // 2, speed)


class Drive:
    """PROFILE "A drive under the supervisor": what it keeps from step to step."""

    def __init__(self, data: Data, number: int) -> None:
        refuse_driving(data)
        self.supervisor = Supervisor(data)
        self.train, self.x, self.time = TrueTrain(0, 0), number, 0
        self.last: int | None = None  # of the last reading within the SvL
        self.onset: int | None = None  # of the emergency brake

    def step(self) -> Step:
        """The next reading, and the train until the one after it."""
        self.time, self.x = self.time + STEP_TIME, number_after(self.x)
        inhibited = self.supervisor.data.national.inhibit_under_reading
        cycle = self.supervisor.read(reading_of(self.time, self.x, self.train, inhibited))
        orders, stops = self.orders(cycle), 0
        for time in range(self.time, self.time + STEP_TIME):
            before, self.train = self.train, self.after(orders, time)
            stops += before.speed > 0 and self.train.speed == 0
        return Step(cycle, self.train, stops)

    def orders(self, cycle: Cycle) -> Orders:
        """PROFILE "A drive under the supervisor", onset: counted from the last reading within the SvL."""
        eb, within, times = cycle.row.commands.eb, is_within(cycle.situation), self.supervisor.times
        if within:
            self.last = self.time
        if not eb:
            self.onset = None
        elif self.onset is None:
            self.onset = (self.time if self.last is None else self.last) + times.T_traction + times.T_berem
        return Orders(eb, self.onset, within, cycle.situation.reading.accel)

    def after(self, orders: Orders, time: int) -> TrueTrain:
        """PROFILE "A drive under the supervisor", train: where it is 1 ds after a time."""
        if orders.onset is not None and time >= orders.onset:
            return braked(self.supervisor.curves.brakes["safe"], self.train)
        if orders.eb or not orders.within:
            return coasted(self.train)
        return driven(self.train, orders.accel)


def drive_lines(data: Data, number: int, cycles: int) -> list[str]:
    """FORMATS "`drive`": the five lines."""
    drive, emergency, stops = Drive(data, number), 0, 0
    assert isinstance(data.authority, Stop), "a limit of authority isn't driven"
    svl = least = data.authority.svl * GRAINS_PER_CM
    for _ in range(cycles):
        step = drive.step()
        emergency, stops = emergency + step.cycle.row.commands.eb, stops + step.stops
        least = min(least, svl - step.train.place)
    front = up(drive.train.place, GRAINS_PER_MM)
    count = {"cycles": cycles, "emergency": emergency, "stops": stops, "front": front, "least": least // GRAINS_PER_MM}
    return [f"{word} {n}\n" for word, n in count.items()]
