"""Readings, rows, what is shown and causes as structured arrays of NumPy and as DataFrames of pandas.

The columns are the fields of sdm.Reading, sdm.Row, sdm.Display and sdm.Causes by their names, in an array as in a
frame; those of a cause stand behind the name of its trigger, as `emer_limit_mm`. A number is a signed one of 64 bits; a
flag is a bool; a word is that of the program. A number that may be missing is a float in an array, which holds each
place of a track exactly, and NaN where it is missing; in a frame it is a whole number or <NA>.
"""
from __future__ import annotations

from collections.abc import Iterable, Iterator
from dataclasses import fields
from types import NoneType
from typing import TYPE_CHECKING, Any, TypeAlias, get_args, get_type_hints

import numpy as np
import numpy.typing as npt

from sdm.errors import FormError, KindError
from sdm.records import Reading, Record, records_of, whole
from sdm.rows import Cause, Causes, Display, Row, SdmError, Status, Supervision, Target, Word

if TYPE_CHECKING:
    import pandas

Array = npt.NDArray[np.void]
Item = Reading | Row | Display | Causes
Items: TypeAlias = "Array | pandas.DataFrame | Iterable[Item]"
KINDS: tuple[type[Item], ...] = (Row, Reading, Display, Causes)
Columns = dict[str, tuple[Any, bool]]  # each with its type and whether it may be missing
BY_DEFAULT = {"accel_cm_s2": 0, "under_mm_s": 0}


def hints_of(kind: type) -> dict[str, Any]:
    """The fields of a kind of values with their types."""
    told = get_type_hints(kind)
    return {each.name: told[each.name] for each in fields(kind)}


HINTS: dict[type, dict[str, Any]] = {kind: hints_of(kind) for kind in (*KINDS, Cause)}


def columns_of(kind: type) -> Columns:
    """The columns of a kind of values."""
    found: Columns = {}
    for name, hint in HINTS[kind].items():
        alone = next((each for each in get_args(hint) if each is not NoneType), hint)
        if alone is Cause:
            found |= {f"{name}_{each}": (of, of is int) for each, (of, _) in columns_of(Cause).items()}
        else:
            found[name] = alone, alone is not hint
    return found


COLUMNS: dict[type, Columns] = {kind: columns_of(kind) for kind in KINDS}


def code_of(of: Any, may: bool) -> str:
    """The type of a column, as NumPy writes it."""
    if issubclass(of, Word):
        return f"U{max(map(len, of))}"
    return "f8" if may else "?" if of is bool else "i8"


def dtype_of(kind: type) -> np.dtype[np.void]:
    """The type of an array of a kind of values."""
    return np.dtype([(name, code_of(*column)) for name, column in COLUMNS[kind].items()])


READING, ROW, DISPLAY, CAUSES = (dtype_of(kind) for kind in (Reading, Row, Display, Causes))
TYPES: dict[type, np.dtype[np.void]] = {Reading: READING, Row: ROW, Display: DISPLAY, Causes: CAUSES}


def flat(value: Any) -> Iterator[Any]:
    """The fields of a value as its columns have them."""
    for name, hint in HINTS[type(value)].items():
        held = getattr(value, name)
        if held is None and Cause in get_args(hint):
            yield from ("", "", np.nan, np.nan, np.nan)
        elif isinstance(held, Cause):
            yield from flat(held)
        elif held is None:
            yield np.nan
        else:
            yield whole(name, held) if int in (hint, *get_args(hint)) else held


def is_frame(values: Any) -> bool:
    """Whether something is a DataFrame, for which pandas needn't be there."""
    return hasattr(values, "columns") and hasattr(values, "to_numpy")


def array_of(values: Any, *kinds: type[Item]) -> Array:
    """An array of values of one of some kinds: the array itself, or a copy of values or of a frame. KindError of
    others."""
    if isinstance(values, np.ndarray):
        for kind in kinds:
            if values.ndim == 1 and values.dtype == TYPES[kind]:
                return with_whole_numbers(kind, values)
    elif is_frame(values):
        for kind in kinds:
            if kind in (Row, Reading) and set(COLUMNS[kind]) <= set(values.columns):
                return of_columns(kind, columns_in(values, kind))
    elif isinstance(values, Iterable) and not isinstance(values, str | bytes):
        held = list(values)
        for kind in kinds:
            if all(isinstance(value, kind) for value in held):
                made = np.zeros(len(held), TYPES[kind])
                for i, value in enumerate(held):
                    made[i] = tuple(value.numbers().values() if isinstance(value, Reading) else flat(value))
                return made
    due = " or ".join(kind.__name__ for kind in kinds)
    raise KindError(f"expected an array, a frame or a list of {due}, and not {shown(values)}")


def array(values: Items) -> Array:
    """Rows, readings, what is shown or causes as an array, a frame of rows or readings too."""
    return array_of(values, *KINDS)


def shown(values: Any) -> str:
    """What something is, in few words."""
    text = type(values).__name__
    if isinstance(values, np.ndarray):
        return f"{text} of {values.dtype if values.dtype.names is None else ', '.join(values.dtype.names)}"
    return f"{text} of {', '.join(map(str, values.columns))}" if is_frame(values) else text


def columns_in(frame: pandas.DataFrame, kind: type) -> dict[str, Any]:
    """The columns of a frame that a kind of values has."""
    return {
        name: frame[name].to_numpy(float, na_value=np.nan) if may else frame[name].to_numpy()
        for name, (_, may) in COLUMNS[kind].items()
    }


def of_columns(kind: type[Item], columns: dict[str, Any]) -> Array:
    """An array from its columns."""
    held = dict(zip(columns, np.broadcast_arrays(*map(np.asarray, columns.values()))))
    made = np.zeros(np.atleast_1d(next(iter(held.values()))).shape, TYPES[kind])
    for name, (of, may) in COLUMNS[kind].items():
        column = np.atleast_1d(held[name])
        if of is bool and not np.isin(column, (0, 1)).all():
            raise KindError(f"{name} has other values than True and False")
        made[name] = wholes(name, column) if of is int and not may else column
        if issubclass(of, Word) and not (np.isin(made[name], words(of)) & (made[name] == column)).all():
            raise KindError(f"{name} has other words than {', '.join(of)}")
    return with_whole_numbers(kind, made)


def with_whole_numbers(kind: type[Item], array: Array) -> Array:
    """An array, whose floats are whole or NaN. KindError where one is another number, which would be cut."""
    for name, (_, may) in COLUMNS[kind].items():
        if may and (parts := array[name] % 1 > 0).any():
            first = int(parts.argmax())
            raise KindError(f"{name} of row {first + 1} is {array[name][first]}; expected a whole number or none")
    return array


def wholes(name: str, column: npt.NDArray[Any]) -> Any:
    """A column of whole numbers. KindError at the first that is none, SdmError of one beyond 64 bits."""
    try:
        if column.dtype.kind in "iu" and column.dtype != np.uint64:
            return column
        return np.array([whole(f"{name} of row {i}", each) for i, each in enumerate(column, 1)], np.int64)
    except OverflowError:
        raise SdmError(Status.OUT_OF_RANGE, f"out of range: {name} has numbers beyond 64 bits") from None


def readings(frame: Any = None, /, **columns: Any) -> Array:
    """An array of readings: of a DataFrame, of values or of another array of these, or of columns that have the names
    of sdm.Reading; accel_cm_s2 and under_mm_s may be left out.

    KindError where a column holds other than whole numbers; FormError where one is missing, has another name or another
    length; SdmError, OUT_OF_RANGE, where a number is out of its range."""
    if frame is not None and is_frame(frame):
        is_whole = set(READING.names or ()) <= set(frame.columns)
        columns = {str(name): frame[name].to_numpy() for name in ((is_whole and READING.names) or frame.columns)}
    made = of_reading_columns(columns) if frame is None or is_frame(frame) else array_of(frame, Reading).copy()
    if told := misfits(made):
        raise SdmError(Status.OUT_OF_RANGE, f"out of range: {told[1]}")
    return made


def of_reading_columns(columns: dict[str, Any]) -> Array:
    """Readings from columns, of which the last two may be missing."""
    given, names = BY_DEFAULT | columns, READING.names or ()
    if set(given) != set(names):
        raise FormError(f"the columns are {', '.join(given)}; expected {', '.join(names)}")
    try:
        return of_columns(Reading, given)
    except ValueError as why:
        raise FormError(f"the columns differ in length: {why}") from None


def misfits(array: Array) -> tuple[int, str] | None:
    """The first reading of an array with a number out of its range: its number from 0, and what is wrong with it."""
    bad = np.zeros(len(array), bool)
    for name, ends in zip(READING.names or (), Reading.ranges):
        least, most = (array["est_mm"] if end is None else end for end in ends)
        bad |= (array[name] < least) | (array[name] > most)
    if not bad.any():
        return None
    first = int(bad.argmax())
    return first, f"reading {first + 1}: {Reading(*array[first].tolist()).fault()}"


def records_in(records: Any) -> list[Record]:
    """Records of any form as values."""
    if isinstance(records, np.ndarray) or is_frame(records):
        return [Reading(*fields) for fields in array_of(records, Reading).tolist()]
    if not isinstance(records, Iterable):
        raise KindError(f"expected records, and not {shown(records)}")
    return list(records_of(records) if isinstance(records, str | bytes) else records)


def text(rows: Items) -> str:
    """Rows as the program writes them; also what is shown, causes and readings, as values."""
    if not isinstance(rows, np.ndarray) and not is_frame(rows):
        return "".join(each.text() for each in rows)
    array = array_of(rows, Row)
    columns: list[list[Any]] = []
    for name, (of, may) in COLUMNS[Row].items():
        column = array[name].astype(np.int64) if of is bool else array[name]
        columns.append(["-" if mm != mm else int(mm) for mm in column.tolist()] if may else column.tolist())
    return "".join(",".join(map(str, row)) + "\n" for row in zip(*columns))


def frame(values: Items) -> pandas.DataFrame:
    """Rows, readings, what is shown or causes as a DataFrame; a number that is missing is <NA>."""
    import pandas

    array = array_of(values, *KINDS)
    kind = next(kind for kind in KINDS if array.dtype == TYPES[kind])
    made = {}
    for name, (of, may) in COLUMNS[kind].items():
        column = array[name]
        if may:
            missing = np.isnan(column)
            made[name] = pandas.arrays.IntegerArray(np.where(missing, 0, column).astype(np.int64), missing)
        elif issubclass(of, Word):
            made[name] = pandas.Categorical(column, [str(word) for word in of], ordered=of is Supervision)
        else:
            made[name] = column
    return pandas.DataFrame(made)


def of_structs(structs: Array, kind: type[Item]) -> Array:
    """An array of values from the structs of c/sdm.h."""
    made = np.zeros(len(structs), TYPES[kind])
    for name, (of, may) in COLUMNS[kind].items():
        if kind is Row and may:
            place = structs[name.removesuffix("_mm")]
            made[name] = np.where(place["is_some"] != 0, place["mm"], np.nan)
        elif kind is Causes and "_" in name and name != "time_ds":
            trigger, inner = name.split("_", 1)
            made[name] = of_causes(structs[trigger], inner, of)
        elif may:
            made[name] = np.where(structs["target"] != Target.NONE.number, structs[name], np.nan)
        else:
            made[name] = words(of)[structs[name]] if issubclass(of, Word) else structs[name]
    return made


def of_causes(structs: Array, name: str, of: type) -> npt.NDArray[Any]:
    """A column of the causes of a trigger: empty where it doesn't hold."""
    if issubclass(of, Word):
        return np.where(structs["rule"] != 0, words(of)[structs[name]], "")
    return np.where(structs["target"] != Target.NONE.number, structs[name], np.nan)


def words(of: type[Word]) -> npt.NDArray[np.str_]:
    """Words by their numbers."""
    return np.array([str(word) for word in of])
