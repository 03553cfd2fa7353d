"""The mapping of an import: which column is which quantity of a journey (docs/LABORATORY.md has the keys).

A part is a table below `import`. It reads the recording, or a file of its own where it names one.
"""
import tomllib
from collections.abc import Callable, Iterable
from dataclasses import dataclass, field
from fractions import Fraction
from pathlib import Path
from typing import Any

from sdm.laboratory.clock import Clock

from sdm.importing.faults import Findings, FieldPlace
from sdm.importing.tables import NONE, Column, Table, table_of

Raw = dict[str, Any]
QUANTITIES = {  # of each part: its quantities and their units
    "reading": {
        "est": "mm",
        "min": "mm",
        "max": "mm",
        "doubt_over": "mm",
        "doubt_under": "mm",
        "speed": "mm/s",
        "accel": "cm/s²",
        "under": "mm/s",
        "standstill": "1 or 0",
    },
    "authority": {"eoa": "cm", "svl": "cm", "release": "km/h", "trip": "cm", "loa": "cm", "speed": "km/h"},
    "restriction": {"id": "identity", "start": "cm", "end": "cm", "speed": "km/h", "delayed": "1 or 0"},
    "gradient": {"start": "cm", "grad": "tenths of a per mille"},
    "speed": {"start": "cm", "speed": "km/h", "delayed": "1 or 0"},
    "adhesion": {"start": "cm", "end": "cm"},
    "no_special": {"start": "cm", "end": "cm"},
    "packets": {"reference": "cm", "trip": "cm", "release": "km/h"},
}
REQUIRED = {
    "reading": {"est", "speed", "accel", "under"},
    "gradient": {"grad"},
    "speed": {"speed"},
    "adhesion": {"start", "end"},
    "no_special": {"start", "end"},
    "restriction": {"start", "end", "speed"},
}
OF_A_FILE = {"file", "delimiter", "decimal", "time"}
OTHER_KEYS = {  # keys of a part that are no column
    "reading": {"doubt", "group"},
    "packets": {"group", "V_NVREL", "M_TRACKCOND", "leave_out"} | OF_A_FILE,
}
OF_A_COLUMN = {"column", "scale", "shift", "none", "values", "value"}
AT_THE_TOP = {"data", "groups"}  # of `import`, beside the parts


@dataclass(frozen=True)
class Part:
    """A part of the mapping: its table, its columns by their keys, what else it has, and the column of its times."""

    name: str
    table: Table
    columns: dict[str, Column]
    others: Raw
    time: Column | None
    is_recording: bool


@dataclass
class Mapping:
    """A mapping that was read, with the tables that it names."""

    path: Path
    recording: Path
    findings: Findings
    clock: Clock = field(default_factory=Clock)
    parts: dict[str, list[Part]] = field(default_factory=dict)
    data: Path | None = None
    groups: dict[str, int] = field(default_factory=dict)  # the places of balise groups, in cm

    def place(self, key: str) -> FieldPlace:
        return FieldPlace(f"{self.path.name}, key {key}")

    def one(self, name: str) -> Part | None:
        return next(iter(self.parts.get(name, [])), None)


def mapping_of(path: Path, recording: Path, findings: Findings) -> Mapping:
    """The mapping of a file with all tables that it names. Ends the import where it is no TOML or has no `import`."""
    mapping = Mapping(path, recording, findings)
    try:
        raw = tomllib.loads(path.read_bytes().decode("utf-8-sig"), parse_float=Fraction)
    except OSError as why:
        findings.fault(FieldPlace(path.name), why.strerror, "a file that can be read")
        findings.end()
    except ValueError as why:
        findings.fault(FieldPlace(path.name), str(why), "TOML")
        findings.end()
    inner = raw.get("import")
    if not isinstance(inner, dict) or not isinstance(inner.get("reading"), dict) or "time" not in raw:
        findings.fault(FieldPlace(path.name), ", ".join(raw) or "nothing", "the tables `time` and `import.reading`")
        findings.end()
    fill(mapping, raw, inner)
    return mapping


def fill(mapping: Mapping, raw: Raw, inner: Raw) -> None:
    """Reads the clock, the parts and what stands beside them."""
    delimiter, decimal = form_of(mapping, "", raw)
    mapping.clock = clock_of(mapping, raw["time"])
    for key in set(inner) - set(QUANTITIES) - AT_THE_TOP:
        mapping.findings.fault(mapping.place(f"import.{key}"), "the key", one_of({*QUANTITIES, *AT_THE_TOP}))
    if "data" in inner:
        mapping.data = mapping.path.parent / str(inner["data"])
    are_places = lambda value: isinstance(value, dict) and all(map(is_whole, value.values()))
    expected = "a table of places in whole cm"
    mapping.groups = dict(kept(mapping, "import.groups", inner.get("groups", {}), are_places, expected, {}))
    shared = table_of(mapping.recording, delimiter, decimal, mapping.findings)
    time = column_of(mapping, "time", raw["time"], "ds", {"origin"})
    check_columns(mapping, shared, [time])
    for name in QUANTITIES:
        tables = inner.get(name, [])
        for table in tables if isinstance(tables, list) else [tables]:
            mapping.parts.setdefault(name, []).append(part_of(mapping, name, table, shared, time))


def kept(mapping: Mapping, key: str, value: Any, is_right: Callable[[Any], bool], expected: str, default: Any) -> Any:
    """A value of the mapping, or, where it isn't right, the default and a fault."""
    if is_right(value):
        return value
    mapping.findings.fault(mapping.place(key), repr(value), expected)
    return default


def form_of(mapping: Mapping, key: str, raw: Raw) -> tuple[str, str]:
    """The delimiter and the decimal mark of a file."""
    is_mark = lambda value: isinstance(value, str) and len(value) == 1 and value not in '\r\n"'
    delimiter = kept(mapping, f"{key}delimiter", raw.get("delimiter", ","), is_mark, "one character", ",")
    decimal = kept(
        mapping, f"{key}decimal", raw.get("decimal", "."), lambda value: value in (".", ","), '"." or ","', "."
    )
    return delimiter, decimal


def clock_of(mapping: Mapping, raw: Any) -> Clock:
    table = raw if isinstance(raw, dict) else {}
    try:
        return Clock(Fraction(table.get("scale", 1)), Fraction(table.get("shift", 0)), table.get("origin"))
    except (ValueError, TypeError):
        mapping.findings.fault(mapping.place("time"), repr(table.get("origin")), "numbers, and a timestamp as `origin`")
        return Clock()


def part_of(mapping: Mapping, name: str, raw: Any, shared: Table, time: Column) -> Part:
    """A part with its table and columns; what is wrong with its keys are faults."""
    key = f"import.{name}"
    raw = kept(mapping, key, raw, is_table, "a table", {})
    check_keys(mapping, name, raw)
    columns = {
        quantity: column_of(mapping, f"{key}.{quantity}", raw[quantity], unit)
        for quantity, unit in QUANTITIES[name].items()
        if quantity in raw
    }
    table, own_time = shared, None if name == "packets" else time
    if "file" in raw:
        table = table_of(
            mapping.path.parent / str(raw["file"]), *form_of(mapping, f"{key}.", raw), findings=mapping.findings
        )
        own_time = column_of(mapping, f"{key}.time", raw["time"], "ds", {"origin"}) if "time" in raw else None
    check_columns(mapping, table, [*columns.values(), *([own_time] if own_time else [])])
    others = {other: value for other, value in raw.items() if other not in columns}
    for other, (is_right, expected) in KINDS.items():
        if other in others:
            others[other] = kept(mapping, f"{key}.{other}", others[other], is_right, expected, [])
    return Part(name, table, columns, others, own_time, "file" not in raw)


def check_keys(mapping: Mapping, name: str, raw: Raw) -> None:
    """Keys that a part can't have, and keys that it lacks, are faults."""
    key, findings, quantities = f"import.{name}", mapping.findings, QUANTITIES[name]
    others = OTHER_KEYS.get(name, OF_A_FILE)
    for unknown in sorted(set(raw) - set(quantities) - others):
        findings.fault(mapping.place(f"{key}.{unknown}"), "the key", one_of({*quantities, *others}))
    for missing in sorted(REQUIRED.get(name, set()) - set(raw)):
        findings.fault(mapping.place(key), f"no key `{missing}`", f"it, in {quantities[missing]}")
    if name == "packets" and "file" not in raw:
        findings.fault(mapping.place(key), "no key `file`", "the file of the packets")


def column_of(mapping: Mapping, key: str, raw: Any, unit: str, more: Iterable[str] = ()) -> Column:
    """A column of the mapping: `column` or `value`, and how it counts."""
    findings, keys = mapping.findings, OF_A_COLUMN | set(more)
    if not isinstance(raw, dict) or ("column" in raw) == ("value" in raw):
        findings.fault(mapping.place(key), repr(raw), "a table with `column` or with `value`")
        return Column(key, unit, value=Fraction(0))
    for unknown in sorted(set(raw) - keys):
        findings.fault(mapping.place(f"{key}.{unknown}"), "the key", one_of(keys))
    numbers = {"scale": Fraction(1), "shift": Fraction(0)}
    for name in ("scale", "shift", "value"):
        if name in raw and (isinstance(raw[name], bool) or not isinstance(raw[name], (int, Fraction))):
            findings.fault(mapping.place(f"{key}.{name}"), repr(raw[name]), "a number")
        elif name in raw:
            numbers[name] = Fraction(raw[name])
    return Column(
        key,
        unit,
        str(raw.get("column", "")),
        numbers["scale"],
        numbers["shift"],
        tuple(kept(mapping, f"{key}.none", raw.get("none", list(NONE)), are_texts, "a list of texts", NONE)),
        tuple(kept(mapping, f"{key}.values", raw.get("values", {}), is_table, "a table", {}).items()),
        numbers.get("value"),
    )


def check_columns(mapping: Mapping, table: Table, columns: Iterable[Column]) -> None:
    """A column that the file lacks is a fault."""
    for column in columns:
        if column.value is None and table.columns and column.name not in table.columns:
            is_one = len(table.columns) == 1  # as where the mapping doesn't say what stands between columns
            expected = f"another `delimiter`, or {list(table.columns)[0]!r}" if is_one else one_of(table.columns)
            mapping.findings.fault(FieldPlace(table.name, 1), f"no column {column.name!r} for `{column.key}`", expected)


def are_texts(value: Any) -> bool:
    return isinstance(value, list) and all(isinstance(each, str) for each in value)


def are_whole(value: Any) -> bool:
    return isinstance(value, list) and all(map(is_whole, value))


def is_table(value: Any) -> bool:
    return isinstance(value, dict)


def is_whole(value: Any) -> bool:
    return isinstance(value, int) and not isinstance(value, bool)


def one_of(names: Iterable[str]) -> str:
    return "one of " + ", ".join(sorted(names))


KINDS = {  # what keys of `packets` must hold
    "M_TRACKCOND": (are_whole, "a list of numbers"),
    "leave_out": (are_whole, "a list of numbers"),
    "V_NVREL": (is_whole, "whole km/h"),
}
