"""CSV files as lines, and their fields as quantities by the columns that a mapping names."""
import csv
import io
import math
from collections.abc import Iterator
from dataclasses import dataclass
from fractions import Fraction
from pathlib import Path
from typing import Any

from sdm.laboratory.texts import number as number_text

from sdm.importing.faults import Findings, FieldPlace

NONE = ("", "-")  # what stands for no value where the mapping names nothing
NEARLY = Fraction(1, 10)  # km/h


@dataclass(frozen=True)
class FileLine:
    """A line of a table: its number, and its fields by the names of the columns."""

    number: int
    fields: dict[str, str]


@dataclass(frozen=True)
class Table:
    """A CSV file: the name that messages have, its decimal mark, its columns and its lines."""

    name: str
    decimal: str
    columns: tuple[str, ...]
    lines: tuple[FileLine, ...]

    def at(self, line: FileLine, column: str = "") -> FieldPlace:
        return FieldPlace(self.name, line.number, column)


@dataclass(frozen=True)
class Column:
    """Where a quantity comes from: a column with a scale, a shift, what stands for none and other names of values; or
    a value for all lines. `key` is its name in the mapping, `unit` what the result counts in."""

    key: str
    unit: str
    name: str = ""
    scale: Fraction = Fraction(1)
    shift: Fraction = Fraction(0)
    none: tuple[str, ...] = NONE
    values: tuple[tuple[str, Any], ...] = ()
    value: Fraction | None = None

    def text(self, line: FileLine) -> str | None:
        """The field, None where it is empty or stands for none."""
        text = line.fields.get(self.name, "").strip()
        return None if text in self.none else str(dict(self.values).get(text, text))

    def number(self, table: Table, line: FileLine, findings: Findings) -> Fraction | None:
        """The quantity of a line in its unit; None where there is none, and where it is no number, which is a fault."""
        if self.value is not None:
            return self.value
        text = self.text(line)
        if text is None:
            return None
        number = decimal_of(text, table.decimal)
        if number is None:
            findings.fault(table.at(line, self.name), repr(text), f"a number for `{self.key}` ({self.unit})")
            return None
        return number * self.scale + self.shift

    def warn_if_nearly_whole(self, value: Fraction | None, table: Table, line: FileLine, findings: Findings) -> None:
        """Warns of a speed that is rounded down from just below a whole km/h, as that of a recording in other units."""
        if self.unit == "km/h" and value is not None and 0 < math.ceil(value) - value < NEARLY:
            text = f"{number_text(value, 3)} km/h for `{self.key}` count as {math.floor(value)}"
            text += f"; where {math.ceil(value)} is meant, give the column a `shift` of {float(NEARLY):g}"
            findings.warn(table.at(line, self.name), text, once=f"nearly whole {self.key}")


def decimal_of(text: str, decimal: str) -> Fraction | None:
    """A number with this decimal mark; None where the text is another thing."""
    if decimal != "." and "." in text or "/" in text or "_" in text:
        return None
    try:
        return Fraction(text.replace(decimal, "."))
    except ValueError:
        return None


def table_of(path: Path, delimiter: str, decimal: str, findings: Findings) -> Table:
    """The lines of a file with a header. A file that can't be read, lines that are too short or too long and a header
    with a name twice are faults. What is no UTF-8 is read as Windows-1252, with a warning."""
    try:
        text = path.read_bytes().decode("utf-8-sig")
    except OSError as why:
        findings.fault(FieldPlace(path.name), why.strerror, "a file that can be read")
        return Table(path.name, decimal, (), ())
    except UnicodeDecodeError as why:
        found = f"the byte {why.object[why.start]:#04x} is none of UTF-8, so the file is read as Windows-1252"
        findings.warn(FieldPlace(path.name), found)
        text = why.object.decode("cp1252", "replace")
    reader = csv.reader(io.StringIO(text, newline=""), delimiter=delimiter)
    columns = tuple(name.strip() for name in next(reader, []))
    twice = sorted({name for name in columns if name and columns.count(name) > 1})
    for name in twice:
        findings.fault(FieldPlace(path.name, 1, name), "the column twice", "one column of each name")
    lines = tuple(lines_of(reader, path.name, columns, findings))
    if not lines:
        findings.fault(FieldPlace(path.name), f"{len(columns)} columns and no line", "a header and lines below it")
    return Table(path.name, decimal, columns, lines)


def lines_of(reader: Any, name: str, columns: tuple[str, ...], findings: Findings) -> Iterator[FileLine]:
    """The lines below the header; empty ones are skipped."""
    for fields in reader:
        if not any(field.strip() for field in fields):
            continue
        if len(fields) != len(columns):
            findings.fault(
                FieldPlace(name, reader.line_num), f"{len(fields)} fields", f"{len(columns)}, as the header has"
            )
            continue
        yield FileLine(reader.line_num, dict(zip(columns, fields)))
