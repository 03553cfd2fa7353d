"""What is wrong with a recording or its mapping: where, what was found, and what is expected in its place."""
from dataclasses import dataclass, field
from typing import NoReturn

from sdm.errors import FormError

MOST_SHOWN = 40  # faults in a message


@dataclass(frozen=True)
class FieldPlace:
    """A field of a file: the line counts from 1, 0 where there is none; the column is its name, "" where it is none."""

    file: str
    line: int = 0
    column: str = ""

    def __str__(self) -> str:
        return (
            self.file
            + (f", line {self.line}" if self.line else "")
            + (f", column {self.column!r}" if self.column else "")
        )


@dataclass(frozen=True)
class ImportFinding:
    """A fault or a warning at a place."""

    at: FieldPlace
    text: str

    def __str__(self) -> str:
        return f"{self.at}: {self.text}"


class ImportFault(FormError):
    """A recording that can't be imported: all that was found wrong with it."""

    def __init__(self, faults: list[ImportFinding]) -> None:
        more = [f"and {len(faults) - MOST_SHOWN} more"] if faults[MOST_SHOWN:] else []
        super().__init__("\n".join([*map(str, faults[:MOST_SHOWN]), *more]))
        self.faults = faults


@dataclass
class Findings:
    """Collects the faults and the warnings of an import, so that all are reported at once."""

    faults: list[ImportFinding] = field(default_factory=list)
    warnings: list[ImportFinding] = field(default_factory=list)
    told: set[str] = field(default_factory=set)

    def fault(self, at: FieldPlace, found: object, expected: str) -> None:
        """A fault: what was found, and what is expected in its place."""
        self.faults.append(ImportFinding(at, f"found {found}, expected {expected}"))

    def warn(self, at: FieldPlace, text: str, once: str = "") -> None:
        """A warning; of those with the same `once` the first alone is kept."""
        if once and once in self.told:
            return
        self.told.add(once)
        self.warnings.append(ImportFinding(at, text))

    def end(self) -> NoReturn:
        """Ends the import with the faults."""
        raise ImportFault(self.faults)

    def end_if_faulty(self) -> None:
        if self.faults:
            self.end()
