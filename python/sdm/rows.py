"""What a supervisor answers, as values: rows and what a driver is shown, in the units of c/sdm.h."""
from __future__ import annotations

from dataclasses import dataclass
from enum import IntEnum, StrEnum
from typing import TYPE_CHECKING

from sdm.errors import Error

if TYPE_CHECKING:
    from sdm.arrays import Array


class Status(IntEnum):
    """What a call answers: enum sdm_status."""

    DONE = 0
    CLOSED = 1
    IN_USE = 2
    NO_MEMORY = 3
    BAD_DATA = 4
    REFUSED = 5
    OUT_OF_RANGE = 6
    TIME_BACK = 7
    SVL_BEFORE_EOA = 8
    BEYOND_TRACK = 9
    BAD_SPEED = 10
    BAD_TRIP = 11
    FULL = 12
    ID_IN_USE = 13
    BAD_PLACES = 14
    UNKNOWN_ID = 15
    NOT_FRESH = 16


# What each says; those that the program has a text for in docs/FORMATS.md, "Fault lines", in that text.
TEXTS = {
    Status.DONE: "done",
    Status.CLOSED: "the supervisor is closed",
    Status.IN_USE: "the handle has a supervisor",
    Status.NO_MEMORY: "no memory",
    Status.BAD_DATA: "bad data",
    Status.REFUSED: "refused",
    Status.OUT_OF_RANGE: "out of range",
    Status.TIME_BACK: "time back",
    Status.SVL_BEFORE_EOA: "supervised location before end",
    Status.BEYOND_TRACK: "beyond track",
    Status.BAD_SPEED: "bad speed",
    Status.BAD_TRIP: "bad trip place",
    Status.FULL: "too many restrictions",
    Status.ID_IN_USE: "identity in use",
    Status.BAD_PLACES: "restriction value",
    Status.UNKNOWN_ID: "identity unknown",
    Status.NOT_FRESH: "the next supervisor has had a reading or a restriction",
}


class SdmError(Error):
    """Why a call did nothing: its status, and what more is known of it; of data that are refused the program's line.
    Where it ended a call for many records, `rows` are what it made of the readings before it."""

    def __init__(self, status: Status, line: str = "", rows: Array | None = None) -> None:
        super().__init__(status, line)
        self.status, self.line, self.rows = status, line, rows

    def __str__(self) -> str:
        return self.line or TEXTS[self.status]


class Word(StrEnum):
    """A word as the program writes it. Its number in c/sdm.h is its place."""

    @property
    def number(self) -> int:
        """Its number in c/sdm.h."""
        return list(type(self)).index(self)


class State(Word):
    """The type of speed and distance monitoring."""

    CEILING = "C"
    TARGET = "T"
    RELEASE = "R"


class Supervision(Word):
    """The supervision status; they are ordered as they stand here."""

    NORMAL = "N"
    INDICATION = "I"
    OVERSPEED = "O"
    WARNING = "W"
    INTERVENTION = "X"

    def __lt__(self, other: str) -> bool:
        return self.number < Supervision(other).number

    def __le__(self, other: str) -> bool:
        return self.number <= Supervision(other).number

    def __gt__(self, other: str) -> bool:
        return self.number > Supervision(other).number

    def __ge__(self, other: str) -> bool:
        return self.number >= Supervision(other).number


class Target(Word):
    """The kind of the target that counts: a fall of the speed profile, EOA, SvL, LOA."""

    NONE = "-"
    FALL = "M"
    EOA = "E"
    SVL = "S"
    LOA = "L"


class Rule(Word):
    """Why a trigger holds."""

    NONE = "none"
    CEILING = "ceiling"
    TARGET = "target"
    END = "end of authority"
    RELEASE_SPEED = "release speed"
    NO_SERVICE_BRAKE = "no service brake"


class Standing(Word):
    """How a command stands after a reading: a cause of it stands where it is SET, none where it is held."""

    OFF = "off"
    SET = "set"
    HELD_TO_PERMITTED_SPEED = "held until permitted speed"
    HELD_TO_STANDSTILL = "held until standstill"
    HELD_TO_EITHER = "held until standstill or permitted speed"


class Field(IntEnum):
    """A number of a struct that is outside its range."""

    NO_FIELD = 0
    READING_TIME_DS = 1
    READING_EST_MM = 2
    READING_MIN_MM = 3
    READING_MAX_MM = 4
    READING_SPEED_MM_S = 5
    READING_ACCEL_CM_S2 = 6
    READING_UNDER_MM_S = 7
    RESTRICTION_ID = 8
    RESTRICTION_SPEED_KMH = 9
    RESTRICTION_IS_DELAYED = 10
    ALLOWANCE_FRONT_MM = 11
    ALLOWANCE_SPEED_MM_S = 12
    ALLOWANCE_ACCEL_CM_S2 = 13


STATES, SUPERVISIONS, TARGETS = ("".join(words) for words in (State, Supervision, Target))  # by their numbers
RULES = ("-", *list(Rule)[1:])
STANDINGS = tuple(Standing)


@dataclass(frozen=True)
class Row:
    """What is commanded after a reading; a place is None where there is no such limit."""

    time_ds: int
    state: State
    status: Supervision
    tco: bool
    sb: bool
    eb: bool
    covered: bool
    ceiling_kmh: int
    ebi_mm: int | None
    sbi_mm: int | None
    warning_mm: int | None
    permitted_mm: int | None
    indication_mm: int | None

    def text(self) -> str:
        """Its line, as the program writes it."""
        flags = ",".join(str(int(flag)) for flag in (self.tco, self.sb, self.eb, self.covered))
        places = (self.ebi_mm, self.sbi_mm, self.warning_mm, self.permitted_mm, self.indication_mm)
        shown = ",".join("-" if mm is None else str(mm) for mm in places)
        return f"{self.time_ds},{self.state},{self.status},{flags},{self.ceiling_kmh},{shown}\n"


@dataclass(frozen=True)
class Display:
    """What the driver can be shown of a reading: the greatest whole speeds at which a limit isn't passed, and the
    target that counts; the distance is None where there is no target."""

    time_ds: int
    permitted_kmh: int
    sbi_kmh: int
    ebi_kmh: int
    release_kmh: int
    target: Target
    target_kmh: int
    distance_mm: int | None

    def text(self) -> str:
        """Its line, as the program writes it."""
        distance = "-" if self.distance_mm is None else str(self.distance_mm)
        speeds = f"{self.permitted_kmh},{self.sbi_kmh},{self.ebi_kmh},{self.release_kmh}"
        return f"{self.time_ds},{speeds},{self.target},{distance}\n"


@dataclass(frozen=True)
class Cause:
    """The first cause of a trigger. The target with its speed, its place and the limit that is passed is there where
    the rule is TARGET; else it is NONE, and the numbers are None."""

    rule: Rule
    target: Target
    target_kmh: int | None
    target_mm: int | None
    limit_mm: int | None

    def text(self) -> str:
        """Its words, as the program writes them."""
        if self.rule != Rule.TARGET:
            return self.rule
        return f"target {self.target} {self.target_mm} {self.target_kmh} {self.limit_mm}"


@dataclass(frozen=True)
class Causes:
    """How each command stands after a reading, and why it triggers; a trigger that doesn't hold is None."""

    time_ds: int
    tco: Standing
    sb: Standing
    eb: Standing
    over: Cause | None
    warn: Cause | None
    serv: Cause | None
    emer: Cause | None

    def text(self) -> str:
        """Its line, as the program writes it."""
        triggers = ("-" if cause is None else cause.text() for cause in (self.over, self.warn, self.serv, self.emer))
        return ",".join([str(self.time_ds), *triggers, self.tco, self.sb, self.eb]) + "\n"
