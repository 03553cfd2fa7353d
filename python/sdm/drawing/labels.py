"""The names above the upper panel, each with a hair line down to its place: ends of authorities, restrictions."""

import math
from collections.abc import Callable
from dataclasses import dataclass, replace
from typing import Any, Self

from sdm.exact import Zone

from sdm.drawing.journey import CM_PER_M, steps
from sdm.drawing.sheet import BLACK, LEFT, LETTER, LEVEL, SMALL, Sheet, seconds
from sdm.drawing.values import Held, DrawnJourney, DrawnReading

# At most so many levels of labels stand above the plot; names that lie nearer than so many pixels share a label.
LEVELS, NEAR = 5, 12


@dataclass
class Label:
    """A name above the plot, with a hair line down to its place in m. `line`, `start` and `end` are pixels."""

    name: str
    when: str
    until: int
    place: float
    line: float
    start: float = 0
    level: int = 0

    @property
    def words(self) -> str:
        """The whole text."""
        return self.name + self.when

    @property
    def width(self) -> float:
        """How wide the text is at most."""
        return LETTER * len(self.words)

    @property
    def end(self) -> float:
        """Where the text ends."""
        return self.start + self.width

    def free_of(self, other: Self) -> bool:
        """Whether neither of the two touches the other's text, with its own text or its hair line."""
        if self.level == other.level:
            return self.end + 8 <= other.start or other.end + 8 <= self.start
        lower, upper = (self, other) if self.level < other.level else (other, self)
        return not lower.start - 3 < upper.line < lower.end + 3


def period(held: Held[Any], readings: list[DrawnReading]) -> str:
    """When something counts, where that is not the whole journey."""
    since = seconds(readings[held.since].time) if held.since else ""
    if held.until == len(readings):
        return f" from {since} s" if since else ""
    return f" {since} to {seconds(readings[held.until].time)} s".replace("  ", " ")


def wanted_labels(journey: DrawnJourney, sheet: Sheet, low: float, high: float) -> list[Label]:
    """The labels of what ends an authority and of restrictions that come or go, the last ones in force first."""
    scale = (sheet.right - LEFT) / (high - low)
    labels: list[Label] = []

    def label_of(name: str, held: Held[Any], place: float) -> Label:
        return Label(name, period(held, journey.readings), held.until, place, LEFT + (place - low) * scale)

    for held in sorted(journey.ends, key=lambda end: (-end.until, end.what.place)):
        wanted, last = label_of(held.what.name, held, held.what.place), labels[-1] if labels else None
        if last and last.when == wanted.when and wanted.line - last.line < NEAR:
            last.name += ", " + wanted.name
        else:
            labels.append(wanted)
    for zone in journey.restrictions:
        fields = fields_of(zone.what, journey.profile, low, high)
        if fields and period(zone, journey.readings):
            labels.append(label_of(f"{zone.what.speed} km/h", zone, (fields[0][0] + fields[-1][1]) / 2))
    return sorted((at for at in labels if low <= at.place <= high), key=lambda at: (-at.until, -at.place))


def placed(labels: list[Label], width: int) -> list[Label]:
    """The labels that find room: on few levels, or where this gives room to more of them, as stairs that rise to the
    left."""
    low_first = placed_by(labels, width, lambda level, side: (level, side))
    stairs = placed_by(sorted(labels, key=lambda at: -at.line), width, lambda level, side: (side, level))
    return max(low_first, stairs, key=len)


def placed_by(labels: list[Label], width: int, order: Callable[[int, int], tuple[int, int]]) -> list[Label]:
    """The labels, each at the first place in an order where it touches none before it; side 0 is right of the hair
    line."""
    spots = sorted(((level, side) for level in range(LEVELS) for side in (0, 1)), key=lambda spot: order(*spot))
    done: list[Label] = []
    for wanted in labels:
        starts = (wanted.line + 4, wanted.line - wanted.width - 4)
        for level, side in spots:
            at = replace(wanted, level=level, start=starts[side])
            if 4 <= at.start and at.end <= width - 4 and all(at.free_of(other) for other in done):
                done.append(at)
                break
    return done


def label_lines(labels: list[Label], sheet: Sheet, edge: int) -> list[str]:
    """The labels, each with its hair line."""
    lines = []
    for at in labels:
        y = edge + 10 + LEVEL * at.level
        x = f"{at.place:.3f}"
        lines.append(f"set arrow from {x},graph 1 to {x},screen {sheet.up(y + 5)} nohead lw 0.6 lc rgb '{BLACK}'")
        right = at.start > at.line
        lines.append(sheet.label(at.words, at.start if right else at.end, y, ("left " if right else "right ") + SMALL))
    return lines


def fields_of(zone: Zone, profile: list[Zone], low: float, high: float) -> list[tuple[float, float, int, int]]:
    """The rectangles between the speed of a restriction and the static speed profile above it: from, to in m, km/h,
    km/h."""
    fields, pairs = [], steps(profile)
    for (cm, kmh), (next_cm, _) in zip(pairs, pairs[1:] + [(math.inf, 0)]):
        start = max(max(cm, zone.start) / CM_PER_M, low)
        end = min(min(next_cm, zone.end) / CM_PER_M, high)
        if start < end and zone.speed < kmh:
            fields.append((start, end, zone.speed, kmh))
    return fields
