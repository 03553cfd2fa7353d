"""How another computer's recording differs from the rows, as a report has it: by column, over place, and in a table.

Rows and lines are matched, and differ, as tools/compare has it. A deviation is the recording's value less that of the
row.
"""

from collections.abc import Sequence
from fractions import Fraction

from sdm.diagnosis.beside import Beside
from sdm.diagnosis.diagnosing import Diagnosis
from sdm.diagnosis.runs import Run, signed
from sdm.diagnosis.telling import run_text
from sdm.laboratory.comparison import Allowed, Difference, compared_columns, difference, is_beyond, matched, shown
from sdm.laboratory.comparison import told as told_of
from sdm.laboratory.program import Fault
from sdm.laboratory.recording import RecordedLine
from sdm.laboratory.rows import COLUMNS, UNITS, RowTexts
from sdm.laboratory.texts import number

from sdm.reporting.journey import Json, steps_of
from sdm.reporting.page import TextTable

MOST_PICTURES = 40
MILLI = 1000  # of a deviation's unit


class Comparison:
    """Rows beside a recording: what was compared, and all that differs, by column."""

    def __init__(self, source: bytes, rows: Sequence[RowTexts], lines: list[RecordedLine], allowed: Allowed) -> None:
        """Raises Fault where no row has the time of a line."""
        self.rows, self.allowed, held = list(rows), allowed, list(rows)
        self.pairs = matched(held, lines, allowed["ds"]) if lines else []
        if not self.pairs:
            raise Fault("No row has the time of a line of the recording; look at the scale of `time` in the mapping.")
        self.lines = {row: lines[at][0] for row, at in self.pairs}
        self.unmatched = len(lines) - len(self.pairs)
        self.columns = compared_columns(lines)
        self.found: dict[str, list[Difference]] = {name: [] for name in self.columns}
        for pair in self.pairs:
            for name in self.columns:
                each = difference(held, lines, pair, name, allowed)
                if each is not None:
                    self.found[name].append(each)
        self.beside = Beside(source, self.rows, lines, self.pairs)
        self.beyond = {name: [each for each in found if is_beyond(each, allowed)] for name, found in self.found.items()}
        self.explained: dict[tuple[str, int, int], str] = {}  # what explains a run, where it was asked for
        self.runs = self.beside.runs((each for found in self.beyond.values() for each in found), allowed)

    def explain_by(self, found: Diagnosis) -> None:
        """Takes over what a diagnosis says of each run."""
        for run, of in zip(found.runs, found.of_runs):
            self.explained[run.column, run.first, run.last] = run_text(found.explanations[0], of)

    def outcome(self) -> str:
        """In a sentence, how the rows and the recording agree."""
        differing = {each.row for found in self.beyond.values() for each in found}
        alone = len(self.rows) - len(self.pairs)
        matching = f"{len(self.pairs)} rows compared; {alone} rows have no line of their time, "
        matching += f"{self.unmatched} lines no row. "
        if not differing:
            return matching + "Nothing differs by more than the tolerances."
        first = min((found[0] for found in self.beyond.values() if found), key=lambda each: each.row)
        many = "1 row differs" if len(differing) == 1 else f"{len(differing)} rows differ"
        return f"{matching}{many} by more than the tolerances, first {told_of(first, self.rows)}."

    def table(self) -> TextTable:
        """The statistics by column, under a head; a column that the recording lacks says so."""
        head = [
            "column",
            "compared",
            "differ",
            "beyond tolerance",
            "first",
            "least",
            "mean",
            "greatest",
            "farthest off",
        ]
        return [head] + [self.statistics(name) for name in COLUMNS]

    def statistics(self, name: str) -> list[str]:
        """The line of a column. The mean is over all rows compared that have a number on both sides."""
        if name not in self.found:
            return [name, "not compared"] + [""] * 7
        found, beyond = self.found[name], self.beyond[name]
        counts = [name, str(len(self.pairs)), str(len(found)), str(len(beyond))]
        counts.append(f"row {beyond[0].row}" if beyond else "")
        apart = [(deviation, each.row) for each in found if (deviation := signed(each)) is not None]
        if not apart:
            return counts + [""] * 4
        alone = sum(each.deviation is None for each in found)
        both = len(self.pairs) - alone  # rows with a number on both sides, of which some may be equal
        values = [deviation for deviation, _ in apart] + [Fraction(0)] * (both > len(apart))
        mean = sum(values) / both
        farthest = max(apart, key=lambda pair: abs(pair[0]))[1]
        shown_values = [f"{number(value, 3)} {UNITS[name]}" for value in (min(values), mean, max(values))]
        return [*counts, *shown_values, f"row {farthest}"]

    def pictured(self) -> list[tuple[Run, tuple[str, str]]]:
        """The runs that have a picture, one of each kind before the others, in the order of their rows."""
        firsts = {run.kind: run for run in reversed(self.runs)}
        ranked = sorted(self.runs, key=lambda run: firsts[run.kind] is not run)[:MOST_PICTURES]
        chosen = sorted(ranked, key=lambda run: (run.first, run.last))
        return list(zip(chosen, self.beside.lines(chosen), strict=True))

    def json(self) -> Json:
        """What the page draws and its cursor shows."""
        return {
            "line": steps_of(self.lines.get(row) for row in range(len(self.rows))),
            "columns": [self.column(name) for name in self.columns],
            "runs": [
                {
                    "column": run.column,
                    "first": run.first - 1,
                    "last": run.last - 1,
                    "row": run.farthest.row - 1,
                    "text": text,
                    "facts": facts,
                    "explained": self.explained.get((run.column, run.first, run.last), ""),
                }
                for run, (text, facts) in self.pictured()
            ],
        }

    def column(self, name: str) -> Json:
        """The differences of a column: in which rows, by how many thousandths of its unit, or else with which text."""
        found = self.found[name]
        by = [signed(each) for each in found]
        return {
            "name": name,
            "unit": UNITS.get(name, ""),
            "tolerance": float(self.allowed[UNITS[name]]) if name in UNITS else 0,
            "row": steps_of(each.row - 1 for each in found),
            "by": [None if deviation is None else round(deviation * MILLI) for deviation in by],
            "got": [shown(each.got) if deviation is None else None for each, deviation in zip(found, by)],
            "beyond": "".join("01"[is_beyond(each, self.allowed)] for each in found),
        }
