"""How another computer's recording differs from rows: lines matched by their times, and values column by column."""

import math
from dataclasses import dataclass
from fractions import Fraction
from typing import Any

from sdm.errors import Fault, FormError
from sdm.laboratory.recording import RecordedLine, Value
from sdm.laboratory.rows import COLUMNS, UNITS, RowTexts
from sdm.laboratory.texts import number

Allowed = dict[str, Any]  # how far values may be apart, by the unit
Pairs = list[tuple[int, int]]  # of a row's number and a line's, from 0


def tolerances(mm: float, kmh: float, ds: int) -> Allowed:
    """How far values may be apart. Raises FormError where that is below 0 or no number."""
    for name, value in (("mm", mm), ("kmh", kmh), ("ds", ds)):
        if not 0 <= value < math.inf:
            raise FormError(f"{name} is {value}, expected a number from 0 on")
    return {"mm": Fraction(mm), "km/h": Fraction(kmh), "ds": ds}


@dataclass(frozen=True)
class Difference:
    """A value that differs: the row, its line in the recording, the column, both values, and by how much (None: not by
    a number)."""

    row: int
    line: int
    column: str
    due: Value
    got: Value
    deviation: Fraction | None

    @property
    def apart(self) -> Fraction:
        """How far the values are apart, 0 where that is no number."""
        return self.deviation or Fraction(0)


def due_of(name: str, text: str) -> Value:
    """A row's value as a recording has it."""
    if name not in UNITS:
        return text
    return None if text == "-" else int(text)


def matched(rows: list[RowTexts], lines: list[RecordedLine], most: int) -> Pairs:
    """Pairs of a row's number and a line's number, in order: the nearest times, at most so many ds apart."""
    pairs, next_line = [], 0
    for i, row in enumerate(rows):
        time = int(row["time"])
        while next_line < len(lines) and lines[next_line][1]["time"] < time - most:
            next_line += 1
        at = next_line
        while at + 1 < len(lines) and abs(lines[at + 1][1]["time"] - time) < abs(lines[at][1]["time"] - time):
            at += 1
        if at < len(lines) and abs(lines[at][1]["time"] - time) <= most:
            pairs.append((i, at))
            next_line = at + 1
    return pairs


def compared_columns(lines: list[RecordedLine]) -> list[str]:
    """The columns of a row that a recording has."""
    return [name for name in COLUMNS if name in lines[0][1]]


def comes_near(lines: list[RecordedLine], at: int, name: str, due: Value, most: int) -> bool:
    """Whether the recording has a value at most so many ds beside a line."""
    time = lines[at][1]["time"]
    for step in (-1, 1):
        k = at + step
        while 0 <= k < len(lines) and abs(lines[k][1]["time"] - time) <= most:
            if lines[k][1][name] == due:
                return True
            k += step
    return False


def difference(
    rows: list[RowTexts], lines: list[RecordedLine], pair: tuple[int, int], name: str, allowed: Allowed
) -> Difference | None:
    """How a column differs between a row and its line; None where it does so by no more than is allowed."""
    i, at = pair
    due, got = due_of(name, rows[i][name]), lines[at][1][name]
    if due == got:
        return None
    deviation = Fraction(abs(got - due)) if name in UNITS and None not in (due, got) else None
    if deviation is None and name not in UNITS and comes_near(lines, at, name, due, allowed["ds"]):
        return None
    return Difference(i + 1, lines[at][0], name, due, got, deviation)


def differences(rows: list[RowTexts], lines: list[RecordedLine], pairs: Pairs, allowed: Allowed) -> list[Difference]:
    """All that differs, row by row. Raises Fault where less than nothing is allowed."""
    for unit, most in allowed.items():
        if most < 0:
            raise Fault(f"Values may be {float(most):g} {unit} apart, and expected is 0 or more.")
    columns = compared_columns(lines)
    return [each for pair in pairs for name in columns if (each := difference(rows, lines, pair, name, allowed))]


def is_beyond(each: Difference, allowed: Allowed) -> bool:
    """Whether a difference is more than is allowed."""
    return each.deviation is None or each.deviation > allowed[UNITS[each.column]]


def shown(value: Value) -> str:
    return "-" if value is None else number(value, 3) if isinstance(value, (int, Fraction)) else str(value)


def told(each: Difference, rows: list[RowTexts]) -> str:
    """A difference in a line."""
    by = "" if each.deviation is None else f", {number(each.deviation, 3)} {UNITS[each.column]} apart"
    return (
        f"row {each.row} at {number(Fraction(rows[each.row - 1]['time']) / 10)} s, line {each.line}: {each.column} is "
        f"{shown(each.due)}, in the recording {shown(each.got)}{by}"
    )
