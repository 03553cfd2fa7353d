"""The track of a journey: what packets and tables say of stretches of it, put together along the line.

A run has one set of track data. So what is said twice of a place must be the same; where it isn't, the journey must be
cut (docs/LABORATORY.md, "Cutting a journey").
"""
from dataclasses import dataclass, field
from typing import Any

from sdm.importing.faults import Findings, FieldPlace

Entry = tuple[int, Any]  # where it begins (cm), and what holds from there


@dataclass(frozen=True)
class Stretch:
    """What one packet or table says: its entries in order, and where the description ends (None: it isn't said)."""

    entries: tuple[Entry, ...]
    end: int | None
    at: FieldPlace

    @property
    def start(self) -> int:
        return self.entries[0][0]

    @property
    def known_to(self) -> int:
        """Up to where it says what holds; without an end the last entry may go on, or not."""
        return self.entries[-1][0] + 1 if self.end is None else self.end

    def value(self, place: int) -> Any:
        return next(value for start, value in reversed(self.entries) if start <= place)


@dataclass
class Profile:
    """A quantity along the line: `name` is that of its list in the data part."""

    name: str
    findings: Findings
    known: Stretch | None = None

    def add(self, new: Stretch) -> None:
        """Joins another stretch to what is known. Another value at a known place is a fault."""
        old = self.known
        if old is None:
            self.known = new
            return
        low, high = max(old.start, new.start), min(old.known_to, new.known_to)
        places = sorted({low, *(start for start, _ in old.entries + new.entries)})
        for place in places:
            if low <= place < high and old.value(place) != new.value(place):
                found = f"{self.name} {shown(new.value(place))} at {place:,} cm"
                expected = f"{shown(old.value(place))}, as said before; cut the journey where known track data change"
                self.findings.fault(new.at, found, expected)
                return
        if new.start > old.known_to:
            self.findings.warn(new.at, f"{self.name} isn't described from {old.known_to:,} to {new.start:,} cm")
        self.known = joined(old, new)

    def entries(self, base: list[Entry], where: FieldPlace) -> list[Entry]:
        """The entries of the data part: those of the data file up to the first described place, then the others."""
        if self.known is None:
            return base
        start = max(self.known.start, 0)
        late = [place for place, _ in base if place >= start and start > 0]
        if late:
            self.findings.fault(
                where, f"{self.name} at {late[0]:,} cm", f"entries before {start:,} cm, where others begin"
            )
        if start > 0 and not base:
            found = f"no {self.name} from 0 to {start:,} cm"
            self.findings.fault(where, found, f"[[track.{self.name}]] with what held before")
        before = [each for each in base if each[0] < start]
        inner = [(place, value) for place, value in self.known.entries if place > start]
        return merged([*before, (start, self.known.value(start)), *inner])


def shown(value: Any) -> str:
    return f"{value[0]} (delayed {value[1]})" if isinstance(value, tuple) else str(value)


def joined(old: Stretch, new: Stretch) -> Stretch:
    """Two stretches that agree: what is known of the old one, and the new one elsewhere."""
    places = sorted({start for start, _ in old.entries + new.entries} | {old.known_to, new.known_to})
    entries: list[Entry] = []
    for place in places:
        if old.start <= place < old.known_to:
            entries.append((place, old.value(place)))
        elif new.start <= place < new.known_to:
            entries.append((place, new.value(place)))
    ends = [each.end for each in (old, new) if each.known_to == max(old.known_to, new.known_to)]
    return Stretch(tuple(merged(entries)), ends[0], old.at)


def merged(entries: list[Entry]) -> list[Entry]:
    """Entries without those that repeat what holds before them."""
    return [each for i, each in enumerate(entries) if i == 0 or each[1] != entries[i - 1][1]]


@dataclass
class Areas:
    """Areas of the line, in cm, merged where they overlap."""

    name: str
    found: list[tuple[int, int]] = field(default_factory=list)

    def add(self, start: int, end: int) -> None:
        self.found.append((max(start, 0), end))

    def merged(self) -> list[tuple[int, int]]:
        areas: list[tuple[int, int]] = []
        for start, end in sorted(self.found):
            if areas and start <= areas[-1][1]:
                areas[-1] = areas[-1][0], max(areas[-1][1], end)
            elif end > 0:
                areas.append((start, end))
        return areas


@dataclass
class RecordedTrack:
    """All that a recording says of the track."""

    findings: Findings
    gradient: Profile = field(init=False)
    speed: Profile = field(init=False)
    adhesion: Areas = field(init=False)
    no_special: Areas = field(init=False)

    def __post_init__(self) -> None:
        self.gradient, self.speed = Profile("gradient", self.findings), Profile("speed", self.findings)
        self.adhesion, self.no_special = Areas("adhesion"), Areas("no_special")

    def end(self) -> int | None:
        """Where the first description of gradients or speeds ends."""
        known = [each.known.end for each in (self.gradient, self.speed) if each.known is not None]
        return min((end for end in known if end is not None), default=None)
