"""Another computer's recording as rows: a CSV, whose columns a small file maps to those of a row.

The mapping is TOML. At its top `delimiter` and `decimal` (a comma and a point where they are absent); then a table for
each column of a row that is to be compared, which must have `time`. `import` is what sdm.importing reads:

    [ebi]
    column = "d_EBI"          # the name of the recording's column
    scale = 1000              # times this it counts as the row's column does: ds, km/h, mm
    shift = 0                 # and this is added
    none = ["", "NaN"]        # what stands where there is none
    values = {"CSM" = "C"}    # what a value is called in a row

A time may be a timestamp; `origin` is the one that counts as 0, the first one where it is absent.
"""
import csv
import io
import re
import tomllib
from fractions import Fraction
from typing import Any

from sdm.laboratory.clock import Clock
from sdm.laboratory.program import Fault
from sdm.laboratory.rows import COLUMNS, UNITS

ColumnTable = dict[str, Any]
ColumnMapping = tuple[str, str, dict[str, ColumnTable]]  # delimiter, decimal point, the table of each column
Value = Any  # a number, a word, or None for none
RecordedLine = tuple[int, dict[str, Value]]  # its number, and its values by the columns of a row
WHOLE = re.compile(r"-?[0-9]{1,18}")
KEYS = {"column", "scale", "shift", "none", "values"}


def mapping_of(text: bytes) -> ColumnMapping:
    """The mapping that a file tells, checked."""
    try:
        mapping = tomllib.loads(text.decode("utf-8-sig"), parse_float=Fraction)
    except ValueError as why:
        raise Fault(f"The mapping can't be read: {why}.") from None
    columns = {name: table for name, table in mapping.items() if name not in ("delimiter", "decimal", "import")}
    for name, table in columns.items():
        if name not in COLUMNS:
            raise Fault(f"The mapping has {name!r}, which is no column of a row: they are {', '.join(COLUMNS)}.")
        if not isinstance(table, dict) or "column" not in table or set(table) - keys_of(name):
            raise Fault(
                f"The mapping's table {name!r} must have `column`, and may have "
                f"{', '.join(sorted(keys_of(name) - {'column'}))}."
            )
    if "time" not in columns:
        raise Fault("The mapping has no table `time`, by which rows and lines are matched.")
    delimiter, decimal = mapping.get("delimiter", ","), mapping.get("decimal", ".")
    if not isinstance(delimiter, str) or len(delimiter) != 1 or decimal not in (".", ","):
        raise Fault('The mapping must have one character as `delimiter`, and "." or "," as `decimal`.')
    return delimiter, decimal, columns


def keys_of(name: str) -> set[str]:
    """The keys of a table: that of the time may have an origin."""
    return KEYS | {"origin"} if name == "time" else KEYS


def clock_of(table: ColumnTable) -> Clock:
    """The clock that the table of the time gives."""
    try:
        return Clock(Fraction(table.get("scale", 1)), Fraction(table.get("shift", 0)), table.get("origin"))
    except (ValueError, TypeError):
        raise Fault("The mapping's table 'time' must have numbers, and a timestamp as `origin`.") from None


def own_mapping(text: str) -> tuple[ColumnMapping, bool]:
    """The mapping of a recording that has a row's own columns: by its header, or in their order where it has none."""
    first = text.split("\n", 1)[0].strip().split(",")
    header = [name for name in first if name in COLUMNS]
    names = header if "time" in header else COLUMNS
    return (",", ".", {name: {"column": name} for name in names}), "time" not in header


def exact(value: Any) -> int | Fraction:
    """A number as it is, whole where it is one, since whole numbers are worked with ten times faster. Raises ValueError
    where a text is none."""
    if isinstance(value, str) and WHOLE.fullmatch(value):
        return int(value)
    return value if isinstance(value, (int, Fraction)) else Fraction(value)


def value_of(name: str, table: ColumnTable, text: str, decimal: str, line: int) -> Value:
    """A field as the row's column has it: a number, a word, or None for none."""
    text = text.strip()
    if text in table.get("none", ["-", ""]):
        return None
    text = table.get("values", {}).get(text, text)
    if name not in UNITS:
        return str(text)
    try:
        scale, shift = (exact(table.get(key, absent)) for key, absent in (("scale", 1), ("shift", 0)))
        number = exact(str(text).replace(decimal, ".")) * scale + shift
    except ValueError:
        raise Fault(f"Line {line} of the recording: {text!r} in the column {table['column']!r} is no number.") from None
    return number


def time_of(clock: Clock, table: ColumnTable, text: str, decimal: str, line: int) -> int:
    """A time in whole ds."""
    text = text.strip()
    if text in table.get("none", ["-", ""]):
        raise Fault(f"Line {line} of the recording has no time.")
    try:
        return round(clock.ds(str(table.get("values", {}).get(text, text)), decimal))
    except ValueError as why:
        raise Fault(
            f"Line {line} of the recording: {text!r} in the column {table['column']!r} is no number and no timestamp; "
            f"expected is {why}."
        ) from None


def recording_of(text: bytes, mapping: bytes | None) -> list[RecordedLine]:
    """The lines of a recording: each its number and its values by the names of a row's columns."""
    try:
        lines = text.decode("utf-8-sig")
    except UnicodeDecodeError:
        lines = text.decode("cp1252", "replace")
    (delimiter, decimal, columns), is_bare = (mapping_of(mapping), False) if mapping is not None else own_mapping(lines)
    reader = csv.DictReader(io.StringIO(lines, newline=""), COLUMNS if is_bare else None, delimiter=delimiter)
    wanted = [table["column"] for table in columns.values()]
    missing = [name for name in wanted if name not in (reader.fieldnames or [])]
    if missing:
        raise Fault(f"The recording has no column {missing[0]!r}; it has {', '.join(reader.fieldnames or ['none'])}.")
    found: list[RecordedLine] = []
    time = columns.pop("time")
    clock = clock_of(time)
    for fields in reader:
        line = reader.line_num
        values: dict[str, Value] = {"time": time_of(clock, time, fields[time["column"]] or "", decimal, line)}
        for name, table in columns.items():
            values[name] = value_of(name, table, fields[table["column"]] or "", decimal, line)
        found.append((line, values))
    return found
