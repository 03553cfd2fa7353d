"""A journey at once: its data part and its records to its rows, to what a driver is shown, and to causes."""
from __future__ import annotations

import ctypes
from collections.abc import Iterable
from typing import TYPE_CHECKING, TypeAlias

import numpy as np

from sdm.arrays import Array, is_frame, records_in
from sdm.library import Supervisor
from sdm.records import Data, Record, records_of
from sdm.rows import Causes, Display, Row

if TYPE_CHECKING:
    import pandas

Records: TypeAlias = "Array | pandas.DataFrame | str | bytes | Iterable[Record]"


def run(data: Data, records: Records, library: ctypes.CDLL | None = None) -> Array:
    """The rows of a journey, an array of the type sdm.ROW; sdm.frame makes a DataFrame of them.

    The records are an array or a frame of readings, a text as the program takes it, or any records. SdmError where one
    is refused, with its number, counted from 1, and with the `rows` before it; FormError where a text isn't of the form
    of docs/FORMATS.md, KindError where something is no record."""
    return answers(data, records, Row, library)


def display(data: Data, records: Records, library: ctypes.CDLL | None = None) -> Array:
    """What a driver is shown of each reading of a journey, an array of the type sdm.DISPLAY. Raises what `run` does."""
    return answers(data, records, Display, library)


def causes(data: Data, records: Records, library: ctypes.CDLL | None = None) -> Array:
    """Why each reading of a journey triggers, and how each command stands after it, an array of the type sdm.CAUSES.
    Raises what `run` does."""
    return answers(data, records, Causes, library)


def answers(data: Data, records: Records, kind: type, library: ctypes.CDLL | None) -> Array:
    """What a journey's readings lead to, of a kind of values."""
    with Supervisor(data, library) as supervisor:
        if kind is Row and (isinstance(records, np.ndarray) or is_frame(records)):
            return supervisor.cycles(records)
        return supervisor.take_all(held(records), kind)


def held(records: Records) -> Iterable[Record]:
    """Records as values; those of a text as they are read."""
    return records_of(records) if isinstance(records, str | bytes) else records_in(records)
