"""The times of the lines of a part, in ds of the journey."""
from fractions import Fraction
from typing import Any

from sdm.laboratory.clock import Clock

from sdm.importing.mapping import Mapping, Part
from sdm.importing.tables import FileLine


def start_clock(mapping: Mapping, part: Part) -> None:
    """Sets the origin of timestamps to the first line of the recording, where the mapping gives none."""
    for line in part.table.lines[:1]:
        if part.time is not None and (text := part.time.text(line)) is not None:
            try:
                mapping.clock.ds(text, part.table.decimal)
            except ValueError:
                return  # reading the line reports it


class Times:
    """Reads the times of a part's lines. Timestamps of all files count from one origin."""

    def __init__(self, mapping: Mapping, part: Part) -> None:
        self.part, self.findings = part, mapping.findings
        self.clock = mapping.clock if part.is_recording else own_clock(mapping, part)

    def of(self, line: FileLine) -> int | None:
        """The time of a line, rounded; without a column for it 0. None where it is none, which is a fault."""
        column = self.part.time
        if column is None:
            return 0
        text = column.text(line) or ""
        try:
            return round(self.clock.ds(text, self.part.table.decimal))
        except ValueError as why:
            self.findings.fault(self.part.table.at(line, column.name), repr(text), str(why))
            return None


def own_clock(mapping: Mapping, part: Part) -> Clock:
    """The clock of a part with a file of its own: its own scale, and the origin of the recording."""
    raw: Any = part.others.get("time", {})
    origin = raw.get("origin") if isinstance(raw, dict) else None
    column = part.time
    try:
        clock = Clock(*((column.scale, column.shift) if column else (Fraction(1), Fraction(0))), origin)
    except (ValueError, TypeError):
        mapping.findings.fault(mapping.place(f"import.{part.name}.time.origin"), repr(origin), "a timestamp")
        return Clock()
    if origin is None and mapping.clock.is_stamped:
        clock.origin, clock.is_stamped = mapping.clock.origin, True
    return clock
