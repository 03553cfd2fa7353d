"""A supervisor over the shared library of c/sdm.h.

It is called by ctypes, since that is part of every Python and needs no compiler where it runs. Many readings are judged
by `map` over their addresses, without a step of Python for each.
"""
from __future__ import annotations

import ctypes
import os
import threading
from ctypes import c_int32, c_int64, c_size_t, c_uint8, c_uint32, c_void_p
from collections.abc import Iterable
from functools import cache
from itertools import repeat
from operator import length_hint
from pathlib import Path
from types import TracebackType
from typing import TYPE_CHECKING, Any

from sdm.errors import KindError
from sdm.records import Allowance, Data, End, EndCalculated, Limit, Reading, Record, Restriction, Revocation, TripBounds
from sdm.records import toml_of
from sdm.rows import (
    TEXTS,
    Cause,
    Causes,
    Display,
    Row,
    Rule,
    SdmError,
    Standing,
    State,
    Status,
    Supervision,
    Target,
)

if TYPE_CHECKING:
    from sdm.arrays import Array, Items

LAYOUT = 2  # SDM_LAYOUT
HERE = Path(__file__).resolve().parent
IS_REPOSITORY = (HERE.parents[1] / "crates.txt").is_file()
# Where the library is looked for, after SDM_LIBRARY: where an installed package has it, where sdm.build_library puts it
# in the repository, and what the system's loader finds.
PLACES = (HERE / "libsdm.so", HERE.parents[1] / "crates" / "sdm_c" / "out" / "libsdm.so")
INSTALLED = "libsdm.so.2"


class Handle(ctypes.Structure):
    """struct sdm."""

    _fields_ = [("at", c_void_p), ("is_open", c_uint32)]


class LineStruct(ctypes.Structure):
    """struct sdm_line."""

    _fields_ = [("count", c_uint32), ("bytes", c_uint8 * 192)]


class ReadingStruct(ctypes.Structure):
    """struct sdm_reading."""

    _fields_ = [
        ("time_ds", c_uint32),
        *((name, c_int32) for name in ("est_mm", "min_mm", "max_mm")),
        ("speed_mm_s", c_uint32),
        ("accel_cm_s2", c_int32),
        ("under_mm_s", c_uint32),
    ]


class PlaceStruct(ctypes.Structure):
    """struct sdm_place."""

    _fields_ = [("mm", c_int64), ("is_some", c_uint32)]


LIMITS = ("ebi", "sbi", "warning", "permitted", "indication")
FLAGS = ("tco", "sb", "eb", "covered")


class RowStruct(ctypes.Structure):
    """struct sdm_row."""

    _fields_ = [
        *((name, c_uint32) for name in ("time_ds", "state", "status", *FLAGS, "ceiling_kmh")),
        *((name, PlaceStruct) for name in LIMITS),
    ]


class RestrictionStruct(ctypes.Structure):
    """struct sdm_restriction."""

    _fields_ = [(name, c_uint32) for name in ("id", "start_cm", "end_cm", "speed_kmh", "is_delayed")]


class AllowanceStruct(ctypes.Structure):
    """struct sdm_allowance."""

    _fields_ = [(name, c_uint32) for name in ("front_mm", "speed_mm_s", "accel_cm_s2")]


SPEEDS = ("permitted_kmh", "sbi_kmh", "ebi_kmh", "release_kmh")


class DisplayStruct(ctypes.Structure):
    """struct sdm_display."""

    _fields_ = [*((name, c_uint32) for name in ("time_ds", *SPEEDS, "target", "target_kmh")), ("distance_mm", c_int64)]


class CauseStruct(ctypes.Structure):
    """struct sdm_cause."""

    _fields_ = [
        *((name, c_uint32) for name in ("rule", "target", "target_kmh")),
        *((name, c_int64) for name in ("target_mm", "limit_mm")),
    ]


COMMANDS = ("tco", "sb", "eb")
TRIGGERS = ("over", "warn", "serv", "emer")


class CausesStruct(ctypes.Structure):
    """struct sdm_causes."""

    _fields_ = [
        *((name, c_uint32) for name in ("time_ds", *COMMANDS)),
        *((name, CauseStruct) for name in TRIGGERS),
    ]


CALLS: dict[str, list[Any]] = {
    # call: what it takes
    "sdm_open": [c_void_p, ctypes.c_char_p, c_size_t, c_void_p],
    "sdm_cycle": [c_void_p, c_void_p, c_void_p],
    "sdm_end": [c_void_p, c_uint32, c_uint32, c_uint32],
    "sdm_end_calculated": [c_void_p, c_uint32, c_uint32, c_uint32],
    "sdm_limit": [c_void_p, c_uint32, c_uint32],
    "sdm_restrict": [c_void_p, c_void_p],
    "sdm_revoke": [c_void_p, c_uint32],
    "sdm_take_over": [c_void_p, c_void_p],
    "sdm_display": [c_void_p, c_void_p, c_void_p],
    "sdm_causes": [c_void_p, c_void_p, c_void_p],
    "sdm_would_cover": [c_void_p, c_void_p, c_void_p],
    "sdm_would_cover_up_to": [c_void_p, c_void_p, c_void_p],
    "sdm_has_trip_place": [c_void_p, c_uint32, c_uint32, c_void_p],
    "sdm_clear_of": [c_void_p, c_void_p, c_void_p, c_void_p],
}


def load(path: str | os.PathLike[str] | None = None) -> ctypes.CDLL:
    """The shared library: that of a path, or the first of SDM_LIBRARY, PLACES and the system's. Raises OSError where
    there is none, and where it has another layout."""
    named = path or os.environ.get("SDM_LIBRARY")
    return loaded(str(named) if named else next((str(place) for place in PLACES if place.is_file()), INSTALLED))


@cache
def loaded(there: str) -> ctypes.CDLL:
    """The shared library at a path, with the types of its calls."""
    try:
        library = ctypes.CDLL(there)
        library.sdm_layout.restype, library.sdm_layout.argtypes = c_uint32, []
        for call, takes in CALLS.items():
            getattr(library, call).restype, getattr(library, call).argtypes = c_uint32, takes
        library.sdm_close.restype, library.sdm_close.argtypes = None, [c_void_p]
    except (OSError, AttributeError) as why:
        makes = "`python3 -m sdm.build_library` makes it" if IS_REPOSITORY else "SDM_LIBRARY names it; a release has it"
        raise OSError(f"The shared library can't be loaded: {why}. {makes}.") from None
    if library.sdm_layout() != LAYOUT:
        raise OSError(f"{there} has the layout {library.sdm_layout()}, and this package {LAYOUT}.")
    return library


def filled(kind: type[ctypes.Structure], record: Record) -> ctypes.Structure:
    """A struct with the numbers of a record. SdmError, OUT_OF_RANGE, where one doesn't fit into its field."""
    numbers = record.numbers()
    for of, value in zip(kind._fields_, numbers.values()):
        fits(of[1], value, record)
    return kind(*numbers.values())


def fits(of: Any, value: int, record: Record) -> None:
    """Refuses a number of a record that a type of C would cut."""
    if of(value).value != value:
        raise refusal(Status.OUT_OF_RANGE, record)


def refusal(status: Status, record: Record, count: str = "", rows: Array | None = None) -> SdmError:
    """Why a record is refused: which number is out of its range, else all of them."""
    return SdmError(status, f"{count}{TEXTS[status]}: {record.fault() or record.told()}", rows)


WORDS: dict[Any, list[Any]] = {each: list(each) for each in (State, Supervision, Target, Rule, Standing)}


def row_of(struct: RowStruct) -> Row:
    """A row as a value."""
    state, status = WORDS[State][struct.state], WORDS[Supervision][struct.status]
    flags = {name: bool(getattr(struct, name)) for name in FLAGS}
    places = {f"{name}_mm": place.mm if place.is_some else None for name in LIMITS for place in [getattr(struct, name)]}
    return Row(struct.time_ds, state, status, ceiling_kmh=struct.ceiling_kmh, **flags, **places)


def cause_of(struct: CauseStruct) -> Cause | None:
    """The first cause of a trigger, None where it doesn't hold."""
    if struct.rule == Rule.NONE.number:
        return None
    target = WORDS[Target][struct.target]
    numbers = (struct.target_kmh, struct.target_mm, struct.limit_mm)
    return Cause(WORDS[Rule][struct.rule], target, *(numbers if target != Target.NONE else (None, None, None)))


class Supervisor:
    """A supervisor of a journey: open it over a data part, and hand it what comes in the order in which it comes.

    Each call for one record either does what it says, or raises SdmError with its status, or KindError, and changes
    nothing. One for many records ends at the first that is refused, and those before it stand. It may be used by
    several threads, one call after the other; copies of it there are none."""

    def __init__(self, data: Data, library: ctypes.CDLL | None = None) -> None:
        """Opens it over a data part (docs/FORMATS.md), a TOML text or a table. BAD_DATA and REFUSED carry the program's
        line."""
        self._lock = threading.Lock()
        self._handle, line, text = Handle(), LineStruct(), toml_of(data)
        self._library = library if library is not None else load()
        self._at = ctypes.addressof(self._handle)
        status = self._library.sdm_open(self._at, text, len(text), ctypes.addressof(line))
        if status != Status.DONE:
            told = bytes(line.bytes[: line.count]).decode(errors="replace").rstrip("\n")
            raise SdmError(Status(status), told)

    def _call(self, name: str, record: Record, *words: object) -> None:
        """Makes a call for a record and raises what it answers, where that isn't done."""
        with self._lock:
            status = getattr(self._library, name)(self._at, *words)
        if status == Status.CLOSED:
            raise SdmError(Status.CLOSED)
        if status != Status.DONE:
            raise refusal(Status(status), record)

    def _ask(self, name: str, reading: Reading, answer: int) -> None:
        """Makes a call for a reading, which writes its answer at an address."""
        given = filled(ReadingStruct, checked(reading, Reading))
        self._call(name, reading, ctypes.addressof(given), answer)

    def cycle(self, reading: Reading) -> Row:
        """Judges a reading. CLOSED, OUT_OF_RANGE, TIME_BACK."""
        row = RowStruct()
        self._ask("sdm_cycle", reading, ctypes.addressof(row))
        return row_of(row)

    def cycles(self, readings: Items) -> Array:
        """Judges many readings, an array of the type sdm.READING, a frame or a list of them, and answers an array of as
        many rows, of the type sdm.ROW.

        KindError where it is something else. Where a reading is refused, those before it were judged: SdmError has
        their rows as `rows`, and so many are there."""
        from sdm.arrays import array_of, misfits, of_structs
        import numpy as np

        given = array_of(readings, Reading)
        bad = misfits(given)
        structs = given[: bad[0] if bad else None].astype(np.dtype(ReadingStruct))
        rows: Array = np.zeros(len(structs), np.dtype(RowStruct))
        before, after = structs.dtype.itemsize, rows.dtype.itemsize
        first, into = structs.ctypes.data, rows.ctypes.data
        left = iter(range(first, first + before * len(structs), before))
        with self._lock:
            statuses = map(
                self._library.sdm_cycle, repeat(self._at), left, range(into, into + after * len(structs), after)
            )
            status = next(filter(None, statuses), Status.DONE)
        done = len(structs) - length_hint(left) - (status != Status.DONE)
        if status == Status.DONE and bad:
            status = Status.CLOSED if self._handle.is_open == 0 else Status.OUT_OF_RANGE
        judged = of_structs(rows[:done], Row)
        if status != Status.DONE:
            raise refusal(Status(status), Reading(*given[done].tolist()), f"reading {done + 1}: ", judged)
        return judged

    def end(self, authority: End) -> None:
        """Takes an authority to an end. CLOSED, SVL_BEFORE_EOA, BEYOND_TRACK, BAD_SPEED."""
        self._numbers("sdm_end", checked(authority, End))

    def end_calculated(self, authority: EndCalculated) -> None:
        """Takes one with a calculated release speed. CLOSED, SVL_BEFORE_EOA, BEYOND_TRACK, BAD_TRIP."""
        self._numbers("sdm_end_calculated", checked(authority, EndCalculated))

    def limit(self, authority: Limit) -> None:
        """Takes an authority to a limit. CLOSED, BEYOND_TRACK, BAD_SPEED."""
        self._numbers("sdm_limit", checked(authority, Limit))

    def restrict(self, restriction: Restriction) -> None:
        """Puts a restriction into force. CLOSED, OUT_OF_RANGE, FULL, ID_IN_USE, BAD_PLACES."""
        given = filled(RestrictionStruct, checked(restriction, Restriction))
        self._call("sdm_restrict", restriction, ctypes.addressof(given))

    def revoke(self, revocation: Revocation) -> None:
        """Lifts a restriction. CLOSED, OUT_OF_RANGE, UNKNOWN_ID."""
        self._numbers("sdm_revoke", checked(revocation, Revocation))

    def take_over(self, before: Supervisor) -> None:
        """Takes over restrictions, time and commands from the supervisor that ran before, where this one was opened
        over new data. CLOSED, NOT_FRESH, BAD_PLACES."""
        if checked(before, Supervisor) is self:
            raise KindError("a supervisor can't take over from itself")
        one, other = sorted((self, before), key=id)  # so that no two threads wait for each other
        with one._lock, other._lock:
            status = self._library.sdm_take_over(self._at, before._at)
        if status != Status.DONE:
            raise SdmError(Status(status))

    def _numbers(self, call: str, record: Record, *into: int) -> None:
        numbers = record.numbers().values()
        for value in numbers:
            fits(c_uint32, value, record)
        self._call(call, record, *numbers, *into)

    def take(self, record: Record) -> Row | None:
        """Takes any record: the row of a reading, else nothing."""
        match record:
            case Reading():
                return self.cycle(record)
            case End():
                self.end(record)
            case EndCalculated():
                self.end_calculated(record)
            case Limit():
                self.limit(record)
            case Restriction():
                self.restrict(record)
            case Revocation():
                self.revoke(record)
            case _:
                raise KindError(f"{record!r} is no record")
        return None

    def take_all(self, records: Iterable[Record], kind: type = Row) -> Array:
        """Takes records one after the other: an array of the readings' rows, or of another kind, sdm.Display or
        sdm.Causes. SdmError of one that is refused has those before it."""
        from sdm.arrays import of_structs
        import numpy as np

        def made() -> Array:
            return of_structs(np.frombuffer(b"".join(map(bytes, answers)), np.dtype(struct)), kind)

        struct, call = ANSWERS[kind]
        answers: list[ctypes.Structure] = []
        count = 0
        try:
            for count, record in enumerate(records, 1):
                if isinstance(record, Reading):
                    answers.append(self._answer(record, struct, call))
                else:
                    self.take(record)
        except SdmError as why:
            line = str(why) if str(why).startswith("record ") else f"record {count}: {why}"
            raise SdmError(why.status, line, made()) from None
        return made()

    def _answer(self, reading: Reading, struct: type[ctypes.Structure], call: str) -> ctypes.Structure:
        """Judges a reading: its row, or what another call says of it."""
        row, answer = RowStruct(), struct()
        self._ask("sdm_cycle", reading, ctypes.addressof(row))
        if call == "sdm_cycle":
            return row
        self._ask(call, reading, ctypes.addressof(answer))
        return answer

    def display(self, reading: Reading) -> Display:
        """What the driver can be shown of a reading that was judged. CLOSED, OUT_OF_RANGE."""
        shown = DisplayStruct()
        self._ask("sdm_display", reading, ctypes.addressof(shown))
        speeds, target = {name: getattr(shown, name) for name in SPEEDS}, WORDS[Target][shown.target]
        distance = None if target == Target.NONE else shown.distance_mm
        return Display(shown.time_ds, **speeds, target=target, target_kmh=shown.target_kmh, distance_mm=distance)

    def causes(self, reading: Reading) -> Causes:
        """Why a reading that was judged triggers, and how each command stands after it. CLOSED, OUT_OF_RANGE."""
        told = CausesStruct()
        self._ask("sdm_causes", reading, ctypes.addressof(told))
        tco, sb, eb = (WORDS[Standing][getattr(told, name)] for name in COMMANDS)
        over, warn, serv, emer = (cause_of(getattr(told, name)) for name in TRIGGERS)
        return Causes(told.time_ds, tco, sb, eb, over, warn, serv, emer)

    def would_cover(self, reading: Reading) -> bool:
        """Whether the row of a reading would be covered, if it were the next one; its time doesn't count. CLOSED,
        OUT_OF_RANGE."""
        is_covered = c_uint32()
        self._ask("sdm_would_cover", reading, ctypes.addressof(is_covered))
        return bool(is_covered.value)

    def would_cover_up_to(self, asked: Reading) -> bool:
        """Whether a reading would cover each target past its min safe front end: then each reading up to it that asks
        no more is covered, or in release speed monitoring (docs/INTEGRATION.md, "Before a gap"). CLOSED,
        OUT_OF_RANGE."""
        is_covered = c_uint32()
        self._ask("sdm_would_cover_up_to", asked, ctypes.addressof(is_covered))
        return bool(is_covered.value)

    def has_trip_place(self, width_cm: int, excess_mm_s: int) -> bool:
        """Whether the authority in force is an end whose release speed has a trip place, for readings that keep two
        bounds until the train is tripped (docs/INTEGRATION.md, "A calculated release speed"). CLOSED, OUT_OF_RANGE."""
        has_place = c_uint32()
        self._numbers("sdm_has_trip_place", TripBounds(width_cm, excess_mm_s), ctypes.addressof(has_place))
        return bool(has_place.value)

    def clear_of(self, reading: Reading, allowance: Allowance = Allowance()) -> int | None:
        """The first millimetre of the track by which the service brake stops the train of a reading, where it is beyond
        the estimate and gains speed by the allowance at most; None where the track ends before it. CLOSED,
        OUT_OF_RANGE."""
        given = filled(ReadingStruct, checked(reading, Reading))
        allowed, first = filled(AllowanceStruct, checked(allowance, Allowance)), PlaceStruct()
        told: Record = reading if reading.fault() else allowance
        self._call("sdm_clear_of", told, *(ctypes.addressof(each) for each in (given, allowed, first)))
        return first.mm if first.is_some else None

    def close(self) -> None:
        """Gives the memory back; of one that is closed nothing happens."""
        with self._lock:
            self._library.sdm_close(self._at)

    def __enter__(self) -> Supervisor:
        return self

    def __exit__(
        self, kind: type[BaseException] | None, why: BaseException | None, trace: TracebackType | None
    ) -> None:
        self.close()

    def __del__(self) -> None:
        if "_at" in vars(self):
            self.close()

    def __reduce__(self) -> str:
        raise KindError("a supervisor can't be copied")


ANSWERS: dict[type, tuple[type[ctypes.Structure], str]] = {
    Row: (RowStruct, "sdm_cycle"),
    Display: (DisplayStruct, "sdm_display"),
    Causes: (CausesStruct, "sdm_causes"),
}


def checked(record: Any, kind: type) -> Any:
    """A record, if it is of a kind."""
    if not isinstance(record, kind):
        raise KindError(f"{record!r} is no {kind.__name__}")
    return record
