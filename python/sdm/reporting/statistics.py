"""A table of what happened on a journey, by its rows and readings, as sdm.laboratory.statistics counts them."""

from collections import Counter
from collections.abc import Sequence

from sdm.drawing.sheet import STATES
from sdm.laboratory.rows import RowTexts
from sdm.laboratory.statistics import COMMANDS, MARGINS, STATUSES, Counts, count
from sdm.exact import Reading
from sdm.reporting.page import TextTable


def metres(mm: int) -> str:
    return f"{mm / 1000:,.3f} m"


def seconds(ds: int) -> str:
    return f"{ds / 10:,.1f} s"


def at(row: int, readings: Sequence[Reading]) -> str:
    """Where a row stands: its number from 1, its time and place."""
    reading = readings[row - 1]
    return f"row {row}, at {seconds(reading.time)} and {metres(reading.est)}"


def shares(counts: Counter[str], names: dict[str, str]) -> str:
    """How many rows have each value of a column."""
    return ", ".join(f"{counts[value]} {value} ({name})" for value, name in names.items() if counts[value])


def journey_table(readings: Sequence[Reading], rows: Sequence[RowTexts]) -> TextTable:
    """The table of a journey that has rows."""
    found = count(Counts(), zip(rows, readings))
    first, last = readings[0], readings[-1]
    speed = f"{found.fastest_mm_s * 0.0036:.3f} km/h ({found.fastest_mm_s / 1000:.3f} m/s)"
    return [
        ["readings", f"{found.readings:,}"],
        ["time", f"{seconds(first.time)} to {seconds(last.time)}"],
        ["estimated front end", f"{metres(first.est)} to {metres(last.est)}"],
        ["greatest speed", f"{speed}: {at(found.fastest_row or 1, readings)}"],
        ["states", shares(found.states, {key: f"{shade.name} monitoring" for key, shade in STATES.items()})],
        ["statuses", shares(found.statuses, STATUSES)],
        *[[title, command_text(name, found, readings)] for name, title in COMMANDS.items()],
        ["covered", f"{found.covered:,} rows"],
        *[[f"least way to the {title}", least_way(name, found, readings)] for name, title in MARGINS.items()],
    ]


def command_text(name: str, found: Counts, readings: Sequence[Reading]) -> str:
    """In how many rows a command stands, how often it comes, and where first."""
    if name not in found.first_set:
        return "never"
    times = "once" if found.set[name] == 1 else f"{found.set[name]} times"
    rows = "1 row" if found.commanded[name] == 1 else f"{found.commanded[name]:,} rows"
    return f"{rows}; it comes {times}, first in {at(found.first_set[name], readings)}"


def least_way(name: str, found: Counts, readings: Sequence[Reading]) -> str:
    """The least way from the max safe front end to the place of a limit, of a train that moves."""
    if name not in found.margins:
        return "none"
    margin = found.margins[name]
    return f"{metres(margin.mm)} from the max safe front end: {at(margin.row, readings)}"
