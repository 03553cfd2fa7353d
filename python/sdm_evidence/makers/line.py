"""A run over a line of many kilometres, made from a seed: what tests and measurements of long journeys look at.

The train stops at stations, authorities grow as it runs, restrictions come and go, and the odometer's doubt grows from
one balise group to the next. Its driver brakes early at most falls, and late at some.
"""

import random
from collections.abc import Iterator
from dataclasses import dataclass, field
from math import isqrt

CM_PER_KM, MM_PER_CM = 100_000, 10
TRAIN_CM, VIEW_CM, GROUP_CM = (
    20_000,
    700_000,
    150_000,
)  # its length; how far an authority reaches; between balise groups
STANDING_DS, MARGIN_MM_S = 400, 900  # at a station; how far the driver stays below the speed limit
PULL_CM_S2, BRAKE_CM_S2, LATE_CM_S2 = 45, 50, 68

TRAIN = """version = 2
[train]
length = 20000
max_speed = 200
traction_cutoff_time = 20
traction_cutoff_interface = true
emergency_time = 30
service_time = 40
service_brake = true
[[train.band]]
upper = 120
emergency = 130
service = 100
normal = 70
kdry = 850
kwet = 950
kn_up = 0
kn_down = 0
[[train.band]]
emergency = 110
service = 90
normal = 60
kdry = 850
kwet = 950
kn_up = 0
kn_down = 0
[national]
avadh = 0
adhesion_max = 70
guidance = true
service_in_target = true
early_release = false
inhibit_under_reading = false
"""


@dataclass
class Line:
    """A line with its run: places in cm, speeds in km/h. `late` are the falls that the driver brakes late for."""

    length: int
    gradients: list[tuple[int, int]]  # from which place on, tenths of a per mille
    speeds: list[tuple[int, int]]
    stations: list[int]
    restrictions: list[tuple[int, int, int]]
    late: set[int] = field(default_factory=set)

    def falls(self) -> list[tuple[int, int]]:
        """Where the driver brakes, and to which speed: slower entries, restrictions, stations."""
        pairs = zip(self.speeds, self.speeds[1:])
        slower = [(place, speed) for (_, before), (place, speed) in pairs if speed < before]
        slower += [(start, speed) for start, _, speed in self.restrictions]
        return sorted(slower + [(place, 0) for place in self.stations])

    def limit(self, place: int) -> int:
        """The lowest speed under the train, in km/h."""
        under = [speed for (start, speed), end in zip(self.speeds, self._ends()) if start <= place < end + TRAIN_CM]
        under += [speed for start, end, speed in self.restrictions if start <= place < end + TRAIN_CM]
        return min(under)

    def _ends(self) -> list[int]:
        return [start for start, _ in self.speeds[1:]] + [self.length]


def stretches(numbers: random.Random, length: int, least: int, most: int) -> Iterator[int]:
    """Places from 0 on, at random distances."""
    place = 0
    while place < length:
        yield place
        place += numbers.randrange(least, most)


def line_of(numbers: random.Random, km: int) -> Line:
    """A line of so many km."""
    length = km * CM_PER_KM
    gradients = [(place, numbers.randrange(-100, 100)) for place in stretches(numbers, length, 50_000, 250_000)]
    speeds = [(place, 10 * numbers.randrange(10, 20)) for place in stretches(numbers, length, 150_000, 500_000)]
    stations = [place for place in stretches(numbers, length, 900_000, 1_800_000)][1:] + [length - 30_000]
    starts = [place for place in stretches(numbers, length - 200_000, 600_000, 1_200_000)][1:]
    restrictions = [
        (start, start + numbers.randrange(40_000, 150_000), 10 * numbers.randrange(4, 9)) for start in starts
    ]
    line = Line(length, [(0, 0), *gradients[1:]], speeds, sorted(set(stations)), restrictions)
    line.late = {place for place, speed in line.falls() if speed and numbers.random() < 0.25}
    return line


def data_part(line: Line) -> str:
    """The data part of a run over a line."""
    text = TRAIN + f"[track]\nlength = {line.length}\n"
    text += "".join(f"[[track.gradient]]\nstart = {place}\ngrad = {grad}\n" for place, grad in line.gradients)
    speeds = "".join(f"[[track.speed]]\nstart = {place}\nspeed = {kmh}\ndelayed = true\n" for place, kmh in line.speeds)
    eoa = min(VIEW_CM, line.stations[0])
    return text + speeds + f'[authority]\nkind = "end"\neoa = {eoa}\nsvl = {eoa + 8_000}\nrelease = 20\n%%\n'


class Driver:
    """Drives the train over a line: its place in tenths of a mm, its speed in mm/s, and the time in ds."""

    def __init__(self, line: Line, cycle: int) -> None:
        self.line, self.cycle = line, cycle
        self.place, self.speed, self.time, self.standing = 0, 0, 0, 0
        self.falls, self.stations = line.falls(), list(line.stations)

    @property
    def cm(self) -> int:
        return self.place // 100

    def wanted(self) -> int:
        """The speed that the driver wants, in mm/s."""
        speed = max(self.line.limit(self.cm) * 10_000 // 36 - MARGIN_MM_S, 0)
        for place, kmh in self.falls:
            if self.cm < place < self.cm + 600_000:
                brake = LATE_CM_S2 if place in self.line.late else BRAKE_CM_S2
                foot = max(kmh * 10_000 // 36 - MARGIN_MM_S, 0)
                way = max((place - self.cm) * MM_PER_CM - 5_000, 0)
                speed = min(speed, isqrt(foot * foot + 2 * 10 * brake * way))
        return speed

    def step(self) -> int:
        """A cycle on; the acceleration in cm/s²."""
        self.falls = [(at, kmh) for at, kmh in self.falls if (at > self.cm if kmh else at in self.stations)]
        wanted, most = self.wanted(), PULL_CM_S2 * self.cycle
        at_station = bool(self.stations) and self.stations[0] - self.cm < 1_200 and self.speed < 600
        if at_station:
            wanted, self.standing = 0, self.standing + self.cycle
            if self.standing >= STANDING_DS:
                self.stations.pop(0)
                self.standing = 0
        faster = max(min(wanted, self.speed + most), self.speed - 90 * self.cycle, 0)
        change, self.place = faster - self.speed, self.place + (self.speed + faster) * self.cycle // 2
        self.speed, self.time = faster, self.time + self.cycle
        return max(min(change // self.cycle, 300), -300)


def records_of(line: Line, numbers: random.Random, cycle: int) -> Iterator[str]:
    """The records of a run: readings, authorities as the train comes on, restrictions as they come into view."""
    driver, held = Driver(line, cycle), set()
    eoa, group, drift = min(VIEW_CM, line.stations[0]), 0, 0
    while driver.stations:
        accel = driver.step()
        if not driver.stations:
            return
        end = min([driver.cm // 100_000 * 100_000 + VIEW_CM, *driver.stations[:1]])
        if end > eoa:
            eoa = end
            yield f"end,{eoa},{min(eoa + 8_000, line.length)},20"
        for number, (start, stop, speed) in enumerate(line.restrictions):
            if number not in held and driver.cm + VIEW_CM > start:
                held.add(number)
                yield f"restrict,{number},{start},{stop},{speed},1"
            if number in held and driver.cm > stop + 2 * TRAIN_CM and number + 1000 not in held:
                held.add(number + 1000)
                yield f"revoke,{number}"
        if driver.cm // GROUP_CM != group:
            group, drift = driver.cm // GROUP_CM, numbers.randrange(-10, 11)
        way = driver.place // 10 - group * GROUP_CM * MM_PER_CM
        est = driver.place // 10 + way * drift // 1000
        doubt = 4_000 + way * 15 // 1000
        yield f"read,{driver.time},{est},{est - doubt},{est + doubt},{driver.speed},{accel},{200 + driver.speed // 100}"


def a_run(seed: int, km: int, cycle: int = 2) -> bytes:
    """The input of a run over a line of so many km, with a reading each so many ds."""
    numbers = random.Random(seed)
    line = line_of(numbers, km)
    return (data_part(line) + "".join(f"{record}\n" for record in records_of(line, numbers, cycle))).encode()
