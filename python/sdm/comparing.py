"""Compares another computer's recording with the rows of `sdm run`: tools/compare ROWS RECORDING --mapping FILE

RECORDING is a CSV, and the mapping tells which of its columns is which of a row's (docs/LABORATORY.md shows one);
without a mapping its columns are a row's own. Rows and lines are matched in order by their times. It tells the first
difference, a table by column with the greatest deviation, the runs of rows that differ in the same way, and each row
that differs. With the input of the rows each run says what decided it. It writes the rows as the recording has them,
for tools/plot, where a file for them is given. It ends with 0 where nothing differs by more than the tolerances, with 1
where something does, with 2 where it can't compare. In Python `sdm.compare` gives the differences as a DataFrame.
"""
from __future__ import annotations

import argparse
import math
import os
import sys
from fractions import Fraction
from pathlib import Path
from typing import TYPE_CHECKING, Any

from sdm.diagnosis.beside import Beside
from sdm.diagnosis.runs import Joints, Run, runs_of
from sdm.diagnosis.runs import told as told_of_run
from sdm.laboratory.comparison import (
    Allowed,
    Difference,
    compared_columns,
    differences,
    is_beyond,
    matched,
    told,
    tolerances,
)
from sdm.laboratory.program import Fault
from sdm.laboratory.recording import RecordedLine, Value, recording_of
from sdm.laboratory.rows import COLUMNS, UNITS, RowTexts, is_row, rows_of, text_of
from sdm.laboratory.texts import number
from sdm.laboratory.walk import read, write

if TYPE_CHECKING:
    import pandas
    from sdm.arrays import Items

NAMES = {name: f"{name}_{unit.replace('/', '')}" for name, unit in UNITS.items()}  # of columns as sdm.Row has them


def compare(
    rows: Items,
    recording: str | os.PathLike[str],
    mapping: str | os.PathLike[str] | None = None,
    *,
    mm: float = 2,
    kmh: float = 0.5,
    ds: int = 0,
) -> pandas.DataFrame:
    """Where another computer's recording, a CSV with its mapping, differs from rows by more than is allowed: a line for
    each value, with the number of the row and its time, the line of the recording, the column, both values, and how far
    they are apart, <NA> where that is no number.

    Places may be `mm` apart, ceilings `kmh`, times of rows and lines `ds`. FormError where one of these is below 0,
    Fault where nothing can be compared."""
    import pandas

    from sdm.arrays import text

    lines = recording_of(read(recording), None if mapping is None else read(mapping))
    held = rows_of(text(rows))
    found = Compared(held, lines, tolerances(mm, kmh, ds)).beyond
    table = {
        "row": [each.row for each in found],
        "line": [each.line for each in found],
        "time_ds": [int(held[each.row - 1]["time"]) for each in found],
        "column": [NAMES.get(each.column, each.column) for each in found],
        "sdm": pandas.array([plain(each.due) for each in found], object),
        "recording": pandas.array([plain(each.got) for each in found], object),
        "apart": pandas.array([plain(each.deviation) for each in found], "Float64"),
    }
    return pandas.DataFrame(table)


def plain(value: Value) -> Any:
    """A value as a table has it: a number that isn't whole as a float, <NA> for none."""
    import pandas

    if value is None:
        return pandas.NA
    return value if isinstance(value, str) else int(value) if value == int(value) else float(value)


def table(columns: list[str], found: list[Difference], allowed: Allowed, count: int) -> list[str]:
    """The lines of the table by column: how many are compared, how many differ, the greatest deviation and where."""
    lines = [f"{'column':12}{'compared':>9}{'differ':>8}  greatest deviation"]
    for name in columns:
        here = [each for each in found if each.column == name]
        beyond = [each for each in here if is_beyond(each, allowed)]
        apart = [each for each in here if each.deviation is not None]
        worst = max(apart, key=lambda each: each.apart, default=None)
        greatest = "" if worst is None else f"{number(worst.apart, 3)} {UNITS[name]} at row {worst.row}"
        none = sum(each.deviation is None for each in here)
        if name in UNITS and none:
            greatest += f"{'; ' if greatest else ''}{none} with a place on one side alone"
        lines.append(f"{name:12}{count:>9}{len(beyond):>8}  {greatest}".rstrip())
    return lines


def put_in(rows: list[RowTexts], beyond: list[Difference]) -> str:
    """The rows as text, with the recording's values where they differ; a value that no row can have is left out."""
    rows = [dict(row) for row in rows]
    for each in beyond:
        got = round(each.got) if each.column == "ceiling" and each.got is not None else each.got
        text = "-" if got is None else got if isinstance(got, str) else str(math.floor(got))
        changed = rows[each.row - 1] | {each.column: text}
        if is_row(text_of(changed)):
            rows[each.row - 1] = changed
    return "".join(text_of(row) + "\n" for row in rows)


class Compared:
    """Rows beside a recording: what differs beyond the tolerances, and its runs. Raises Fault where nothing is to be
    compared."""

    def __init__(
        self, rows: list[RowTexts], lines: list[RecordedLine], allowed: Allowed, source: bytes | None = None
    ) -> None:
        """`source` is the input of the rows, where it is known: it says what decided each run."""
        if not rows or not lines:
            raise Fault(f"There is nothing to compare: {len(rows)} rows, {len(lines)} lines.")
        self.rows, self.lines, self.allowed = rows, lines, allowed
        self.pairs = matched(rows, lines, allowed["ds"])
        if not self.pairs:
            raise Fault("No row has the time of a line of the recording; look at the scale of `time` in the mapping.")
        self.columns = compared_columns(lines)
        self.found = differences(rows, lines, self.pairs, allowed)
        self.beyond = [each for each in self.found if is_beyond(each, allowed)]
        self.runs = self.runs_by(source) if source is not None else self.runs_alone()

    def runs_by(self, source: bytes) -> list[tuple[Run, str]]:
        """The runs, each with what decided it."""
        beside = Beside(source, self.rows, self.lines, self.pairs)
        runs = beside.runs(self.beyond, self.allowed)
        return [(run, "\n    ".join(lines)) for run, lines in zip(runs, beside.lines(runs))]

    def runs_alone(self) -> list[tuple[Run, str]]:
        """The runs by the rows and the recording alone."""
        runs = runs_of(self.beyond, Joints([row + 1 for row, _ in self.pairs], self.allowed))
        return [(run, told_of_run(run)) for run in runs]

    def report(self, most: int) -> list[str]:
        """All that is told, in lines; of runs and of single differences at most so many."""
        lines = [
            f"{len(self.pairs)} rows compared; {len(self.rows) - len(self.pairs)} rows have no line of their time, "
            f"{len(self.lines) - len(self.pairs)} lines no row"
        ]
        if self.beyond:
            lines += [f"first difference: {told(self.beyond[0], self.rows)}"]
        else:
            lines += ["no difference beyond the tolerances"]
        lines += ["", *table(self.columns, self.found, self.allowed, len(self.pairs))]
        if len(self.columns) < len(COLUMNS):
            lines += ["not compared: " + ", ".join(name for name in COLUMNS if name not in self.columns)]
        return lines + (self.run_lines(most) + self.single_lines(most) if self.beyond else [])

    def run_lines(self, most: int) -> list[str]:
        """The runs in their order; where they are too many, one of each kind before the others."""
        firsts = {run.kind: run for run, _ in reversed(self.runs)}
        ranked = sorted(self.runs, key=lambda pair: firsts[pair[0].kind] is not pair[0])
        chosen = {id(run) for run, _ in ranked[:most]}
        lines = ["", f"runs of differences ({len(self.runs)}, of {len(firsts)} kinds):"]
        lines += ["  " + text for run, text in self.runs if id(run) in chosen]
        return lines + ([f"  and {len(self.runs) - most} more"] if self.runs[most:] else [])

    def single_lines(self, most: int) -> list[str]:
        """Which rows differ, and the first differences one by one."""
        numbers = sorted({each.row for each in self.beyond})
        rows = f"rows that differ ({len(numbers)}): {', '.join(map(str, numbers[:most]))}"
        lines = ["", rows + (", ..." if numbers[most:] else "")]
        lines += ["  " + told(each, self.rows) for each in self.beyond[:most]]
        return lines + ([f"  and {len(self.beyond) - most} more"] if self.beyond[most:] else [])


def words_of(args: list[str]) -> argparse.Namespace:
    parser = argparse.ArgumentParser(prog="tools/compare", description=__doc__.split("\n\n")[0])
    parser.add_argument("rows", metavar="ROWS", help="the rows that sdm run wrote, - for standard input")
    parser.add_argument("recording", metavar="RECORDING", help="the other computer's recording, a CSV")
    parser.add_argument("--mapping", metavar="FILE", help="a TOML file that maps the recording's columns to a row's")
    parser.add_argument(
        "--input", metavar="FILE", help="the input of sdm run for ROWS: then each run says what decided it"
    )
    parser.add_argument(
        "--mm", type=Fraction, default=Fraction(2), help="how far places may be apart, 2 where it isn't said"
    )
    parser.add_argument(
        "--kmh", type=Fraction, default=Fraction(1, 2), help="how far ceilings may be apart, 0.5 where it isn't said"
    )
    parser.add_argument(
        "--ds",
        type=int,
        default=0,
        help="how far times of rows and lines may be apart, and a state, status or "
        "command may come too early or too late; 0 where it isn't said",
    )
    parser.add_argument(
        "--altered",
        type=Path,
        metavar="FILE",
        help="writes ROWS there with the recording's values where they " "differ by more than that, for tools/plot",
    )
    parser.add_argument(
        "--most",
        type=int,
        default=20,
        metavar="N",
        help="how many runs and how many differences are listed, 20 where it isn't said",
    )
    return parser.parse_args(args)


def main(args: list[str]) -> int:
    words = words_of(args)
    allowed = {"mm": words.mm, "km/h": words.kmh, "ds": words.ds}
    try:
        rows = rows_of(read(words.rows).decode(errors="replace"))
        lines = recording_of(read(words.recording), read(words.mapping) if words.mapping else None)
        compared = Compared(rows, lines, allowed, read(words.input) if words.input else None)
        if words.altered:
            write(words.altered, put_in(rows, compared.beyond))
    except Fault as why:
        print(f"compare: {why}", file=sys.stderr)
        return 2
    print("\n".join(compared.report(words.most)))
    return int(bool(compared.beyond))
