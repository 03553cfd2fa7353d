"""The records of a journey as values: what is handed to a supervisor, in the units of c/sdm.h. The columns are those of
docs/FORMATS.md, in their order."""
from __future__ import annotations

import csv
import io
import re
from collections.abc import Iterable, Iterator, Mapping, Sequence
from dataclasses import dataclass, fields
from operator import index
from typing import Any, ClassVar

from sdm.errors import FormError, KindError
from sdm.rows import SdmError, Status
from sdm.toml_text import toml

Data = str | bytes | Mapping[str, Any]
Range = tuple[int | None, int | None]  # None: the estimated front end of the record
NUMBER = re.compile("-?[0-9]{1,18}")
TIME, SPEED, REARMOST, FOREMOST = (0, 100_000_000), (0, 138_888), -10_000_000, 110_000_000  # ds, mm/s, mm, mm
PLACES = ((REARMOST, FOREMOST), (REARMOST, None), (None, FOREMOST))  # est, min, max
CM, KM_H, IDENTITY = (0, 10_000_000), (1, 500), (0, 65_535)
UNITS = {"ds": "ds", "mm": "mm", "cm": "cm", "kmh": "km/h", "mm_s": "mm/s", "cm_s2": "cm/s²"}  # by the ends of names


def unit_of(name: str) -> str:
    """The unit of a field, with a space before it; of a number without one nothing."""
    unit = UNITS.get(name.split(" ")[0].partition("_")[2])
    return f" {unit}" if unit else ""


def whole(name: str, value: Any) -> int:
    """A whole number, also one of NumPy. KindError of anything else, which would be cut."""
    try:
        return index(value.item() if hasattr(value, "item") else value)
    except (TypeError, ValueError):
        text = f"{name} is {value!r}, of the type {type(value).__name__}; expected a whole number"
        raise KindError(text + (f" of{unit_of(name)}" if unit_of(name) else "")) from None


def misfit(name: str, value: int, ends: Range, est: int) -> str:
    """That a number is out of its range, and what is expected; nothing, where it isn't."""
    least, most = (est if end is None else end for end in ends)
    if least <= value <= most:
        return ""
    return f"{name} is {value:,}{unit_of(name)}, expected {least:,} to {most:,}{unit_of(name)}"


@dataclass(frozen=True)
class Record:
    """A record; `kind` is its first column, `ranges` are those of the others (docs/FORMATS.md, "What a record
    writes")."""

    kind: ClassVar[str]
    ranges: ClassVar[tuple[Range, ...]]

    def numbers(self) -> dict[str, int]:
        """Its fields. KindError where one is no whole number."""
        return {name: whole(name, value) for name, value in vars(self).items()}

    def text(self) -> str:
        """Its line, as the program takes it."""
        return ",".join([self.kind, *map(str, self.numbers().values())]) + "\n"

    def fault(self) -> str:
        """The first field that is out of its range, with what is expected; nothing, where none is."""
        numbers = self.numbers()
        est = numbers.get("est_mm", 0)
        found = (misfit(name, value, ends, est) for (name, value), ends in zip(numbers.items(), self.ranges))
        return next(filter(None, found), "")

    def told(self) -> str:
        """Its fields in words."""
        return ", ".join(f"{name} {value:,}{unit_of(name)}" for name, value in self.numbers().items())


@dataclass(frozen=True)
class Reading(Record):
    """A reading of the odometer: front ends in mm, V_est in mm/s, A_est in cm/s², the under-reading amount in mm/s."""

    kind = "read"
    ranges = (TIME, *PLACES, SPEED, (-300, 300), (0, 10_000))
    time_ds: int
    est_mm: int
    min_mm: int
    max_mm: int
    speed_mm_s: int
    accel_cm_s2: int = 0
    under_mm_s: int = 0


@dataclass(frozen=True)
class End(Record):
    """A movement authority to an EOA, with its SvL and a release speed (0: none)."""

    kind = "end"
    ranges = (CM, CM, (0, 500))
    eoa_cm: int
    svl_cm: int
    release_kmh: int = 0


@dataclass(frozen=True)
class EndCalculated(Record):
    """The same with the calculated release speed for a trip at a place (SUBSET-026-3 3.13.9.4.8)."""

    kind = "endcalc"
    ranges = (CM, CM, CM)
    eoa_cm: int
    svl_cm: int
    trip_cm: int


@dataclass(frozen=True)
class Limit(Record):
    """A movement authority to a limit, which is passed at its speed."""

    kind = "limit"
    ranges = (CM, KM_H)
    loa_cm: int
    speed_kmh: int


@dataclass(frozen=True)
class Restriction(Record):
    """A temporary speed restriction; where it is delayed its end counts for the rear end of the train."""

    kind = "restrict"
    ranges = (IDENTITY, CM, CM, KM_H, (0, 1))
    id: int
    start_cm: int
    end_cm: int
    speed_kmh: int
    is_delayed: bool = False


@dataclass(frozen=True)
class Revocation(Record):
    """The end of the restriction with an identity."""

    kind = "revoke"
    ranges = (IDENTITY,)
    id: int


@dataclass(frozen=True)
class Allowance(Record):
    """What a train may be beyond its estimate at a reading, and gain after it: of no journey, so without a line."""

    kind = "allowance"
    ranges = ((0, 10_000_000), (0, 10_000), (0, 300))
    front_mm: int = 0
    speed_mm_s: int = 0
    accel_cm_s2: int = 0


@dataclass(frozen=True)
class TripBounds(Record):
    """What readings keep until the train is tripped: of no journey, so without a line."""

    kind = "trip bounds"
    ranges = ((0, 2**32 - 1), (0, 2**32 - 1))
    width_cm: int
    excess_mm_s: int


RECORDS: tuple[type[Record], ...] = (Reading, End, EndCalculated, Limit, Restriction, Revocation)
FORMS = {made.kind: made for made in RECORDS}


def fields_of(text: bytes) -> list[list[str]]:
    """The fields of each record of a text (docs/FORMATS.md, "What a record is"); an empty line is none. A byte is a
    character here."""
    characters = text.removeprefix(b"\xef\xbb\xbf").decode("latin-1")
    longest = csv.field_size_limit(max(len(characters), csv.field_size_limit()))
    try:
        return [fields for fields in csv.reader(io.StringIO(characters, newline="")) if fields]
    finally:
        csv.field_size_limit(longest)


def record_of(words: Sequence[str]) -> Record:
    """The record that fields write. FormError, and SdmError of a number out of its range, with the text of
    docs/FORMATS.md and then what is expected."""
    made = FORMS.get(words[0])
    if made is None:
        raise FormError(f"unknown kind: {words[0]!r}, expected {', '.join(FORMS)}")
    names = [each.name for each in fields(made)]
    if len(words) != len(names) + 1:
        raise FormError(f"field count: {len(words)}, expected {len(names) + 1}: {', '.join([made.kind, *names])}")
    numbers: list[int] = []
    for column, (name, word, ends) in enumerate(zip(names, words[1:], made.ranges), 2):
        if not NUMBER.fullmatch(word):
            raise FormError(f"field {column}: not a number: {name} is {word!r}")
        numbers.append(int(word))
        if told := misfit(name, numbers[-1], ends, numbers[min(1, column - 2)]):
            raise SdmError(Status.OUT_OF_RANGE, f"field {column}: out of range: {told}")
    return made(*numbers)


def records_of(text: str | bytes) -> Iterator[Record]:
    """The records of a text as the program takes it. At the first of another form FormError, and at one whose number is
    out of its range SdmError, with the text of docs/FORMATS.md and then what is expected."""
    for number, words in enumerate(fields_of(text.encode() if isinstance(text, str) else text), 1):
        try:
            yield record_of(words)
        except FormError as why:
            raise FormError(f"record {number}: {why}") from None
        except SdmError as why:
            raise SdmError(why.status, f"record {number}: {why}") from None


def toml_of(data: Data) -> bytes:
    """The text of a data part (docs/FORMATS.md), of a table as tomllib reads one. Raises KindError where it can't be
    written."""
    if isinstance(data, bytes):
        return data
    if isinstance(data, str):
        return data.encode()
    if not isinstance(data, Mapping):
        raise KindError(f"a data part is a text or a table, and no {type(data).__name__}")
    return toml(data).encode()


def input_of(data: Data, records: Iterable[Record]) -> bytes:
    """The input of `sdm run` for these."""
    return toml_of(data) + b"\n%%\n" + "".join(record.text() for record in records).encode()
