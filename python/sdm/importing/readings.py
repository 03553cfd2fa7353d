"""The readings of a recording: front ends with their uncertainty, speed, standstill."""
import math
from dataclasses import dataclass
from fractions import Fraction
from typing import Any

from sdm.exact import PLACE, SPEED, TIME
from sdm.records import Reading

from sdm.importing.faults import FieldPlace
from sdm.importing.mapping import Mapping, Part, column_of, one_of
from sdm.importing.tables import Column, FileLine
from sdm.importing.times import Times

ACCEL, UNDER = (-300, 300), (0, 10_000)  # cm/s², mm/s: docs/FORMATS.md, "What a record writes"


@dataclass(frozen=True)
class Doubt:
    """An odometer's uncertainty by a formula: so many mm, and so many percent of the distance since the last balise
    group, which is a column, or counts from the line in which the column of the group changes."""

    constant: Fraction
    percent: Fraction
    since: Column | None
    balise: Column | None


@dataclass(frozen=True)
class SourcedReading:
    """A reading with the line that it comes from."""

    line: FileLine
    reading: Reading


def doubt_of(mapping: Mapping, part: Part) -> Doubt | None:
    """The formula that the mapping gives, if it gives one."""
    raw = part.others.get("doubt")
    if raw is None:
        return None
    key, findings = "import.reading.doubt", mapping.findings
    allowed = {"metres", "percent", "since", "balise"}
    if not isinstance(raw, dict) or set(raw) - allowed or ("percent" in raw) != (("since" in raw) != ("balise" in raw)):
        expected = "a table with `metres`, and `percent` with either `since` or `balise`"
        findings.fault(mapping.place(key), shown_keys(raw), expected)
        return None
    numbers = {}
    for name in ("metres", "percent"):
        numbers[name] = raw.get(name, 0)
        if isinstance(numbers[name], bool) or not isinstance(numbers[name], (int, Fraction)) or numbers[name] < 0:
            findings.fault(mapping.place(f"{key}.{name}"), repr(raw[name]), "a number from 0 on")
            return None
    columns = {
        name: column_of(mapping, f"{key}.{name}", raw[name], unit)
        for name, unit in (("since", "mm"), ("balise", "a balise group"))
        if name in raw
    }
    for column in columns.values():
        if column.name not in part.table.columns:
            findings.fault(FieldPlace(part.table.name, 1), f"no column {column.name!r}", one_of(part.table.columns))
    return Doubt(
        Fraction(1000 * numbers["metres"]), Fraction(numbers["percent"]), columns.get("since"), columns.get("balise")
    )


def shown_keys(raw: Any) -> str:
    return ", ".join(raw) if isinstance(raw, dict) else repr(raw)


class ReadingMaker:
    """Makes readings of lines, in order. What is wrong with a field is a fault."""

    def __init__(self, mapping: Mapping, part: Part, groups: dict[str, int]) -> None:
        self.part, self.findings, self.groups = part, mapping.findings, groups
        self.times = Times(mapping, part)
        self.doubt = doubt_of(mapping, part)
        self.group = group_of(mapping, part)
        self.balise: tuple[str, Fraction] | None = None  # the last group, and est where it was read first
        self.time = 0
        self.check_ends(mapping)

    def check_ends(self, mapping: Mapping) -> None:
        """The bounds of the front end come in one of three ways."""
        given = set(self.part.columns) & {"min", "max", "doubt_over", "doubt_under"}
        ways = [
            given == {"min", "max"},
            given == {"doubt_over", "doubt_under"},
            not given and "doubt" in self.part.others,
        ]
        if not any(ways) or (given and "doubt" in self.part.others):
            found = ", ".join(sorted(given | (set(self.part.others) & {"doubt"}))) or "none of them"
            expected = "`min` and `max`, `doubt_over` and `doubt_under`, or `doubt`"
            mapping.findings.fault(mapping.place("import.reading"), found, expected)

    def number(self, key: str, line: FileLine) -> Fraction | None:
        column = self.part.columns.get(key)
        return None if column is None else self.needed(column, line)

    def needed(self, column: Column, line: FileLine) -> Fraction | None:
        """A quantity that each line must have."""
        before = len(self.findings.faults)
        number = column.number(self.part.table, line, self.findings)
        if number is None and len(self.findings.faults) == before:
            at = self.part.table.at(line, column.name)
            self.findings.fault(at, "no value", f"a number for `{column.key}` ({column.unit})")
        return number

    def within(self, line: FileLine, key: str, number: int, ends: tuple[int, int]) -> bool:
        """Whether a quantity is in its range, else a fault."""
        if ends[0] <= number <= ends[1]:
            return True
        column = self.part.columns[key] if key in self.part.columns else self.part.columns["est"]
        at = self.part.table.at(line, column.name)
        self.findings.fault(at, f"{number:,} {column.unit} for `{key}`", f"{ends[0]:,} to {ends[1]:,} {column.unit}")
        return False

    def front_end(self, line: FileLine) -> Fraction | None:
        """The estimated front end; it counts from a balise group where the mapping names the column of one."""
        est = self.number("est", line)
        if est is None or self.group is None:
            return est
        identity = self.group.text(line)
        if identity not in self.groups:
            at = self.part.table.at(line, self.group.name)
            self.findings.fault(at, f"the group {identity}", "a group of `import.groups` or of packet 5")
            return None
        return est + 10 * self.groups[identity]

    def ends(self, line: FileLine, est: Fraction) -> tuple[Fraction, Fraction] | None:
        """The min and the max safe front end."""
        if self.doubt is not None:
            doubt = self.doubt_at(line, est)
            return None if doubt is None else (est - doubt, est + doubt)
        if "min" in self.part.columns:
            low, high = self.number("min", line), self.number("max", line)
            return None if low is None or high is None else (low, high)
        over, under = self.number("doubt_over", line), self.number("doubt_under", line)
        return None if over is None or under is None else (est - over, est + under)

    def doubt_at(self, line: FileLine, est: Fraction) -> Fraction | None:
        assert self.doubt is not None
        since: Fraction | None = Fraction(0)
        if self.doubt.since is not None:
            since = self.needed(self.doubt.since, line)
        elif self.doubt.balise is not None:
            name = self.doubt.balise.text(line) or (self.balise[0] if self.balise else "")
            if self.balise is None or name != self.balise[0]:
                self.balise = name, est
            since = abs(est - self.balise[1])
        return None if since is None else self.doubt.constant + abs(since) * self.doubt.percent / 100

    def speed(self, line: FileLine) -> int | None:
        """The speed in mm/s: 0 at standstill and, where the recording tells standstill, nowhere else."""
        speed, column = self.number("speed", line), self.part.columns.get("standstill")
        if speed is None or column is None:
            return None if speed is None else round(speed)
        text = column.text(line) if column.value is None else str(column.value)
        if text not in ("0", "1"):
            self.findings.fault(self.part.table.at(line, column.name), repr(text), "1 at standstill, else 0")
            return None
        if text == "0" and round(speed) == 0:
            text_of_warning = "no standstill at a speed that rounds to 0: the reading has 1 mm/s"
            self.findings.warn(self.part.table.at(line, column.name), text_of_warning, "moves")
        return 0 if text == "1" else max(1, round(speed))

    def read(self, line: FileLine) -> SourcedReading | None:
        """The reading of a line; None where a field is at fault."""
        time = self.times.of(line)
        est = self.front_end(line)
        ends = None if est is None else self.ends(line, est)
        speed, accel, under = self.speed(line), self.number("accel", line), self.number("under", line)
        if time is None or est is None or ends is None or speed is None or accel is None or under is None:
            return None
        low, high = math.floor(ends[0]), math.ceil(ends[1])
        made = Reading(time, round(est), low, high, speed, round(accel), math.ceil(under))
        return SourcedReading(line, made) if self.is_reading(line, made) else None

    def is_reading(self, line: FileLine, made: Reading) -> bool:
        """Whether a reading is one that the program takes, after the one before it; else a fault."""
        at = self.part.table.at(line, self.part.time.name if self.part.time else "")
        if not self.time <= made.time_ds <= TIME[1]:
            self.findings.fault(at, f"{made.time_ds:,} ds", f"{self.time:,} to {TIME[1]:,} ds: times never go back")
            return False
        self.time = made.time_ds
        if not made.min_mm <= made.est_mm <= made.max_mm:
            found = f"front ends min {made.min_mm:,}, est {made.est_mm:,}, max {made.max_mm:,} mm"
            self.findings.fault(self.part.table.at(line), found, "min at most est, and est at most max")
            return False
        ranges = [
            ("min", made.min_mm, PLACE),
            ("max", made.max_mm, PLACE),
            ("speed", made.speed_mm_s, SPEED),
            ("accel", made.accel_cm_s2, ACCEL),
            ("under", made.under_mm_s, UNDER),
        ]
        return all([self.within(line, *each) for each in ranges])


def group_of(mapping: Mapping, part: Part) -> Column | None:
    """The column of the balise group that the front ends count from, if the mapping names one."""
    if "group" not in part.others:
        return None
    column = column_of(mapping, f"import.{part.name}.group", part.others["group"], "a balise group")
    if column.name not in part.table.columns:
        at = FieldPlace(part.table.name, 1)
        mapping.findings.fault(at, f"no column {column.name!r} for `{column.key}`", one_of(part.table.columns))
    return column


def readings_of(mapping: Mapping, part: Part, groups: dict[str, int]) -> list[SourcedReading]:
    """The readings of all lines."""
    odometer = ReadingMaker(mapping, part, groups)
    mapping.findings.end_if_faulty()
    return [each for line in part.table.lines if (each := odometer.read(line)) is not None]
