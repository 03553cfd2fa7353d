"""A command of the program as a call: over the shared library of c/sdm_calls.h where one is found, else by the program.

The library answers in this process, so a small journey costs no start of another one.
"""
from __future__ import annotations

import ctypes
import os
from collections.abc import Sequence
from ctypes import c_char_p, c_size_t, c_uint32, c_void_p
from functools import cache
from pathlib import Path

from sdm.laboratory.program import Result, built, run

LAYOUT = 1  # SDM_CALLS_LAYOUT
BAD_CALL = 64  # SDM_CODE_BAD_CALL
HERE = Path(__file__).resolve().parent
# Where the library is looked for, after SDM_CALLS_LIBRARY: where an installed package has it, where sdm.build_calls
# puts it in the repository, and what the system's loader finds.
PLACES = (HERE / "libsdm-calls.so", HERE.parents[1] / "crates" / "sdm_calls" / "out" / "libsdm-calls.so")
INSTALLED = "libsdm-calls.so.1"


class Buffer(ctypes.Structure):
    """struct sdm_buffer."""

    _fields_ = [("at", c_void_p), ("bytes", c_size_t), ("room", c_size_t)]

    def text(self) -> str:
        """What the buffer has."""
        return ctypes.string_at(self.at, self.bytes).decode(errors="replace") if self.bytes else ""


@cache
def loaded(there: str) -> ctypes.CDLL:
    """The shared library at a path, with the types of its calls. OSError where there is none, or one of another
    layout."""
    library = ctypes.CDLL(there)
    try:
        library.sdm_calls_layout.restype, library.sdm_calls_layout.argtypes = c_uint32, []
        takes = [c_char_p, c_size_t, c_char_p, c_size_t, c_void_p, c_void_p]
        library.sdm_command_text.restype, library.sdm_command_text.argtypes = c_uint32, takes
        library.sdm_buffer_free.restype, library.sdm_buffer_free.argtypes = None, [c_void_p]
    except AttributeError as why:
        raise OSError(f"{there} is no library of sdm_calls.h: {why}.") from None
    if library.sdm_calls_layout() != LAYOUT:
        raise OSError(f"{there} has the layout {library.sdm_calls_layout()}, and this package {LAYOUT}.")
    return library


@cache
def found() -> ctypes.CDLL | None:
    """The shared library, if one is found. One that SDM_CALLS_LIBRARY names must be there."""
    named = os.environ.get("SDM_CALLS_LIBRARY")
    if named:
        return loaded(named)
    try:
        return loaded(next((str(place) for place in PLACES if place.is_file()), INSTALLED))
    except OSError:
        return None


def command_by(library: ctypes.CDLL, words: Sequence[str], data: bytes) -> Result:
    """What a command writes, its line and its code, by a call of the library. ValueError where a word has a zero
    byte."""
    if any("\0" in word for word in words):
        raise ValueError("A word has no zero byte.")
    given = "\0".join(words).encode(errors="surrogateescape")
    text, line = Buffer(), Buffer()
    try:
        code = library.sdm_command_text(
            given, len(given), data, len(data), ctypes.addressof(text), ctypes.addressof(line)
        )
        if code == BAD_CALL:
            raise ValueError("The library takes no such words or bytes.")
        return Result(text.text(), line.text(), code)
    finally:
        library.sdm_buffer_free(ctypes.addressof(text))
        library.sdm_buffer_free(ctypes.addressof(line))


def command(words: Sequence[str], data: str | bytes = b"", program: str | os.PathLike[str] | None = None) -> Result:
    """What a command of the program writes for the bytes of an input, the line that it tells of its end, and its code
    (docs/FORMATS.md): by a call of the library where one is found, else by the program; by the program for `live`, and
    by one that is named in any case.

        command(["display"], journey).rows"""
    given = data.encode() if isinstance(data, str) else data
    library = found() if program is None and list(words) != ["live"] else None
    if library is not None:
        return command_by(library, words, given)
    return run(program if program is not None else built(None), words, given)
