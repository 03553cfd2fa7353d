"""What a panel shows of places and speeds, in pixels, and which of many readings it draws."""

from collections.abc import Callable, Iterable
from dataclasses import dataclass
from typing import TypeVar

from sdm.drawing.values import DrawnReading

T = TypeVar("T")
MOST_MARKS = 200  # readings, all of which are drawn
LINE, MARK = 1.0, 6.0  # pixels between two points of a line and between two marks of a series, where some are left out


@dataclass(frozen=True)
class View:
    """The places in m and the speeds in km/h that a panel shows, and its size in pixels."""

    low: float
    high: float
    bottom: float
    top: float
    width: float
    height: float

    def pixels(self, place: float, kmh: float) -> tuple[float, float]:
        """Where a place and a speed lie."""
        x = (place - self.low) / (self.high - self.low) * self.width
        return x, (kmh - self.bottom) / (self.top - self.bottom) * self.height

    def is_near(self, one: tuple[float, float], other: tuple[float, float], pixels: float) -> bool:
        """Whether two points of m and km/h lie nearer than so many pixels."""
        (x, y), (at_x, at_y) = self.pixels(*one), self.pixels(*other)
        return abs(x - at_x) < pixels and abs(y - at_y) < pixels

    def thinned(
        self,
        points: Iterable[T],
        at: Callable[[T], tuple[float, float]],
        pixels: float,
        kind: Callable[[T], object] = lambda point: None,
    ) -> list[T]:
        """The first of some points, the last one, those of another kind than the one before, and of the others those
        that lie so many pixels from the one that was kept last."""
        kept: list[T] = []
        last: T | None = None
        for last in points:
            if not kept or kind(last) != kind(kept[-1]) or not self.is_near(at(last), at(kept[-1]), pixels):
                kept.append(last)
        return kept if last is None or kept[-1] is last else [*kept, last]


def changes(readings: list[DrawnReading], column: str) -> list[DrawnReading]:
    """The readings at which a column of the rows changes, with the ones before them, and the first and the last."""
    values = [reading.row[column] for reading in readings]
    before, after = [None, *values], [*values[1:], None]
    return [reading for reading, *near in zip(readings, before, values, after) if len(set(near)) > 1]
