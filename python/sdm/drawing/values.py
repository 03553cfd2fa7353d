"""What a picture shows, as values."""
import math
import sys
from dataclasses import dataclass, field
from typing import Generic, TypeVar

from sdm.laboratory.rows import RowTexts
from sdm.exact import Zone

T = TypeVar("T")
Span = tuple[float, float]  # from, to
Polyline = list[tuple[float, float]]  # of m and km/h
SeriesData = dict[str, list[str]]
LONG_WAY = 20_000  # m; of a longer way the picture is an overview


@dataclass(frozen=True)
class Window:
    """The part of a journey that is drawn: the readings between two times in s, and of these those between two places
    in m where there are any."""

    times: Span = (-math.inf, math.inf)
    places: Span | None = None

    def has(self, time: float) -> bool:
        """Whether a time lies in it."""
        return self.times[0] <= time <= self.times[1]


@dataclass
class DrawnReading:
    """A reading with its row, the target that its permitted limit is of, and the columns that the model has
    otherwise."""

    time: float  # s
    front: float  # m, the estimated front end
    least: float  # m, the min safe front end
    most: float  # m, the max safe front end
    speed: float  # km/h
    row: RowTexts
    limits: dict[str, float]  # m
    shown: dict[str, int] = field(default_factory=dict)  # km/h, of `display`
    release: int | None = None  # km/h, in release speed monitoring
    counts: str = ""
    differs: str = ""
    otherwise: list[tuple[str, str]] = field(default_factory=list)  # the same, with what is told of each


@dataclass
class Held(Generic[T]):
    """What counts for the readings from number `since` up to, but not including, `until`."""

    what: T
    since: int
    until: int = sys.maxsize


@dataclass(frozen=True)
class DrawnEnd:
    """What ends an authority: its name, and its place in m."""

    name: str
    place: float


@dataclass
class DrawnJourney:
    """All that a picture shows. `curves` has for each name the whole lines of all that counted, as points of m and
    km/h."""

    readings: list[DrawnReading]
    ends: list[Held[DrawnEnd]] = field(default_factory=list)
    restrictions: list[Held[Zone]] = field(default_factory=list)
    profile: list[Zone] = field(default_factory=list)  # the static profile and the maximum train speed
    gradients: list[tuple[float, float, float]] = field(default_factory=list)  # from m, to m, per mille
    adhesion: list[Span] = field(default_factory=list)  # in m, as the next one
    no_special: list[Span] = field(default_factory=list)
    curves: dict[str, list[Polyline]] = field(default_factory=dict)
    true: Polyline = field(default_factory=list)  # the train itself, of `drive`
    certificates: dict[str, list[Polyline]] = field(default_factory=dict)  # of `check`, by the name of their series
    note: str = ""  # what is told of rows that the model has otherwise
    notes: list[str] = field(default_factory=list)  # the same of each row, in words

    @property
    def is_long(self) -> bool:
        """Whether the picture is an overview, by kilometres."""
        return max(r.front for r in self.readings) - min(r.front for r in self.readings) > LONG_WAY
