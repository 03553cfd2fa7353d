"""The records (FORMATS "The records"): what a record is, and what it writes."""
import re
from collections.abc import Iterator
from typing import Annotated, Any, NamedTuple

from sdm_evidence.model.data import MOST_CM, Key, Limit, Stop
from sdm_evidence.model.outcome import Refused
from sdm_evidence.model.units import GRAINS_PER_MM, NOTCHES_PER_MM_S, Number

NUMBER = re.compile(rb"-?[0-9]{1,18}")
# A field: what stands in quotes, where it begins with one, and then what goes on to the comma or the end of the line.
FIELD = re.compile(rb'(?:"([^"]*(?:""[^"]*)*)(?:"|\Z))?([^,\r\n]*)')


class Reading(NamedTuple):
    """A `read` record in its own units, with the standard's names for what follows from it."""

    time: Annotated[int, Key(unit="ds")]
    est: Annotated[int, Key(unit="mm")]
    min: Annotated[int, Key(unit="mm")]
    max: Annotated[int, Key(unit="mm")]
    speed: Annotated[Number, Key(unit="mm/s")]
    accel: Annotated[int, Key(unit="cm/s²")]
    under: Annotated[int, Key(unit="mm/s")]

    @property
    def V_est(self) -> Number:
        return self.speed * NOTCHES_PER_MM_S

    def front_end(self, which: str) -> int:
        """The place in grains of the estimated ("est"), min safe ("min") or max safe ("max") front end."""
        mm: int = getattr(self, which)
        return mm * GRAINS_PER_MM

    def cell(self, which: str) -> int:
        """PROFILE "Units": the cell of a front end, rounded down, below 0 too."""
        mm: int = getattr(self, which)
        return mm // 10


class Calculated(NamedTuple):
    """`endcalc`, in cm: an authority whose release speed is calculated."""

    eoa: Annotated[int, Key(unit="cm")]
    svl: Annotated[int, Key(unit="cm")]
    trip: Annotated[int, Key(unit="cm")]


class Restriction(NamedTuple):
    """`restrict`, in cm and km/h."""

    identity: Annotated[int, Key()]
    start: Annotated[int, Key(unit="cm")]
    end: Annotated[int, Key(unit="cm")]
    speed: Annotated[int, Key(unit="km/h")]
    delayed: Annotated[int, Key()]


class Revocation(NamedTuple):
    """`revoke`."""

    identity: Annotated[int, Key()]


Event = Reading | Stop | Calculated | Limit | Restriction | Revocation
EST, LOW, HIGH = "est", -10_000_000, 110_000_000  # EST stands for the record's own est
TIME, PLACE, SPEED, END = (0, 100_000_000), (LOW, HIGH), (0, 138_888), (0, MOST_CM)
EVENTS: dict[bytes, tuple[Any, ...]] = {  # FORMATS "What a record writes": the ranges of the columns from 2 on
    b"read": (Reading, TIME, PLACE, (LOW, EST), (EST, HIGH), SPEED, (-300, 300), (0, 10_000)),
    b"end": (Stop, END, END, (0, 500)),
    b"endcalc": (Calculated, END, END, END),
    b"limit": (Limit, END, (1, 500)),
    b"restrict": (Restriction, (0, 65_535), END, END, (1, 500), (0, 1)),
    b"revoke": (Revocation, (0, 65_535)),
}


def read_int(field: bytes) -> int | None:
    """FORMATS "Numbers": the number, or None where the bytes are none."""
    return int(field) if NUMBER.fullmatch(field) else None


def event_of(fields: list[bytes]) -> Event:
    """FORMATS "What a record writes": the event of a record, or the first fault of its form."""
    if fields[0] not in EVENTS:
        raise Refused("unknown kind")
    made, *ranges = EVENTS[fields[0]]
    if len(fields) != len(ranges) + 1:
        raise Refused("field count")
    numbers: list[int] = []
    for column, (field, ends) in enumerate(zip(fields[1:], ranges), 2):
        number = read_int(field)
        if number is None:
            raise Refused(f"field {column}: not a number")
        least, most = (numbers[1] if end is EST else end for end in ends)
        if not least <= number <= most:
            raise Refused(f"field {column}: out of range")
        numbers.append(number)
    event: Event = made(*numbers)
    return event


def records(data: bytes) -> Iterator[list[bytes]]:
    """FORMATS "What a record is": the records' fields, one record after the other."""
    return (fields for _, fields in placed_records(data))


def placed_records(data: bytes, at: int = 0) -> Iterator[tuple[int, list[bytes]]]:
    """Each record's fields, and where among the bytes it begins, from the beginning of one on."""
    if at == 0 and data.startswith(b"\xef\xbb\xbf"):
        at = 3
    while at < len(data):
        begin, fields, more = at, [], data[at] not in b"\r\n"
        while more:
            field = FIELD.match(data, at)
            assert field is not None, "a field may be empty"
            fields.append((field[1] or b"").replace(b'""', b'"') + field[2])
            at, more = field.end() + 1, data.startswith(b",", field.end())
        if fields:
            yield begin, fields
        else:  # the end of an empty line, or the LF of a CRLF
            at += 1
