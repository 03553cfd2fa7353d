"""The way that a train can have gone between readings, by their speeds and the time between them.

From one speed to another a train can have gone at least the way of braking first and at most that of accelerating
first, both with ACCEL_MOST. What a reading's front ends leave open is added to it, and TOLERANCE_MM with a tenth of
the way.
"""
from collections.abc import Iterable, Sequence
from typing import NamedTuple

from sdm.exact import Reading

from sdm.findings.records_part import Placed

ACCEL_MOST = 4_000  # mm/s², the most deceleration that data may hand in
TOLERANCE_MM = 1_000
TOLERANCE_OF_SPEED = 1_000  # mm/s


class Way(NamedTuple):
    """A way in mm: as the front ends have it, and the least and most by the speeds, with the tolerance."""

    gone: float
    least: float
    most: float

    def is_possible(self) -> bool:
        return self.least <= self.gone <= self.most


class PlacedReading(NamedTuple):
    """A reading with its line and number; times in s, places in mm, speeds in mm/s."""

    line: int
    number: int
    reading: Reading

    @property
    def time(self) -> float:
        return self.reading.time / 10

    @property
    def speed(self) -> float:
        return float(self.reading.speed)

    @property
    def width(self) -> int:
        return self.reading.max - self.reading.min


def reads(placed: Iterable[Placed]) -> list[PlacedReading]:
    """The readings among records."""
    return [PlacedReading(each.line, each.number, each.event) for each in placed if isinstance(each.event, Reading)]


def reach(v1: float, v2: float, time: float) -> tuple[float, float]:
    """The least and the most way in mm from one speed to another in a time in s."""
    if abs(v2 - v1) > ACCEL_MOST * time:
        return min(v1, v2) * time, max(v1, v2) * time
    high, low = (v1 + v2 + ACCEL_MOST * time) / 2, max((v1 + v2 - ACCEL_MOST * time) / 2, 0)
    most = (2 * high * high - v1 * v1 - v2 * v2) / (2 * ACCEL_MOST)
    least = (v1 * v1 + v2 * v2 - 2 * low * low) / (2 * ACCEL_MOST)
    return least, most


def tolerance(first: PlacedReading, last: PlacedReading, way: float) -> float:
    """How far a way by front ends may be from one by speeds, in mm."""
    return TOLERANCE_MM + first.width + last.width + way / 10


def way(path: Sequence[PlacedReading]) -> Way:
    """The way along readings, step by step."""
    steps = [reach(a.speed, b.speed, b.time - a.time) for a, b in zip(path, path[1:])]
    least, most = sum(step[0] for step in steps), sum(step[1] for step in steps)
    ends = path[0], path[-1]
    gone = ends[1].reading.est - ends[0].reading.est
    return Way(gone, least - tolerance(*ends, least), most + tolerance(*ends, most))


def by_speed(path: Sequence[PlacedReading]) -> float:
    """The way by the mean speed of each step."""
    return sum((a.speed + b.speed) / 2 * (b.time - a.time) for a, b in zip(path, path[1:]))


def is_place_possible(a: PlacedReading, b: PlacedReading) -> bool:
    return way([a, b]).is_possible()


def is_speed_possible(a: PlacedReading, b: PlacedReading) -> bool:
    return abs(b.speed - a.speed) <= ACCEL_MOST * (b.time - a.time) + TOLERANCE_OF_SPEED
