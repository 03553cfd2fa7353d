"""Every fault of the records: their form (FORMATS "The records"), and what a journey refuses (PROFILE "What a record
does").

A refused record is passed over, as if it had done what it was meant to do, so that one slip isn't told twice.
"""
import re
from collections.abc import Iterator
from typing import NamedTuple

from sdm.exact import (
    Calculated,
    EST,
    EVENTS,
    Event,
    Key,
    Limit,
    MOST_RECORDS,
    MOST_RESTRICTIONS,
    PLACE,
    Reading,
    Refused,
    Restriction,
    Revocation,
    Stop,
    event_of,
    keys_of,
    placed_records,
    read_int,
)

from sdm.findings.alike import AlikeFindings
from sdm.findings.authority import Refusal, refusals
from sdm.findings.expected import nearest, span, with_unit
from sdm.findings.finding import Finding

LINE_END = re.compile(rb"\r\n|\r|\n")
KINDS = {kind.decode(): made for kind, (made, *_) in EVENTS.items()}


class Placed(NamedTuple):
    """A record that has the form of one: its line, its number and what it writes."""

    line: int
    number: int
    event: Event


def lines_of(data: bytes, first: int) -> Iterator[tuple[int, list[bytes]]]:
    """Each record with its line."""
    line, last = first, 0
    for at, fields in placed_records(data):
        line += len(LINE_END.findall(data, last, at))
        last = at
        yield line, fields


def columns_of(kind: str) -> tuple[Key, ...]:
    """The columns of a kind from 2 on, with names and units."""
    return keys_of(KINDS[kind])


def text_of(field: bytes) -> str:
    """A field as a message shows it: whole where it is short, a byte order mark by its name."""
    text = field.decode("utf-8", "backslashreplace").replace("\ufeff", "<byte order mark>")
    return f'"{text}"' if len(text) <= 40 else f'"{text[:40]}…"'


class RecordsPart:
    """The faults of the records behind a line of the input, on a track of a length in cm, where that is known."""

    def __init__(self, data: bytes, first_line: int, length: int | None) -> None:
        self.length, self.found, self.accepted = length, AlikeFindings(), list[Placed]()
        self.fault = ""  # the first refused record, as the program tells it
        self.last: Placed | None = None  # the last reading
        self.held: dict[int, int] = {}  # the identities of the restrictions that are held, with their lines
        for number, (line, fields) in enumerate(lines_of(data, first_line), 1):
            if number > MOST_RECORDS:
                found = "one more record"
                self.tell(line, None, f"record {number:,}", found, f"at most {MOST_RECORDS:,} records")
                self.note(number, "too many events")
                break
            self.record(line, number, fields)

    @property
    def findings(self) -> list[Finding]:
        """The faults; of many that are alike one."""
        return self.found.told()

    def readings(self) -> list[Placed]:
        """The accepted readings."""
        return [each for each in self.accepted if isinstance(each.event, Reading)]

    def tell(self, line: int, column: int | None, where: str, found: str, expected: str, hint: str = "") -> None:
        """A fault. Those of one form are alike wherever they stand, and else those with one place in a record."""
        name = where.partition(", ")[2]
        kind = hint if hint in FORMS else (name, hint, "" if column else found)
        self.found.add(kind, Finding(line, column, where, found, expected, hint))

    def note(self, number: int, text: str) -> None:
        """The first fault is the one that the program tells."""
        self.fault = self.fault or f"bad event {number}: {text}"

    def record(self, line: int, number: int, fields: list[bytes]) -> None:
        """A record: its form, and then what it does."""
        try:
            placed = Placed(line, number, event_of(fields))
        except Refused as refused:
            self.note(number, str(refused))
            self.form(line, number, fields)
            identity = read_int(fields[1]) if fields[0] == b"restrict" and len(fields) > 1 else None
            if identity is not None:
                self.held.setdefault(identity, line)
            return
        kind = fields[0].decode()
        names = [column.name for column in columns_of(kind)]
        refused_by = self.meaning(placed)
        for each in refused_by:
            self.note(number, each.text)
            column = names.index(each.name) + 2
            where = f"record {number}, {kind} {each.name}"
            self.tell(line, column, where, each.found, each.expected, each.hint)
        if not refused_by:
            self.accepted.append(placed)
        if isinstance(placed.event, Reading):
            self.last = placed

    def form(self, line: int, number: int, fields: list[bytes]) -> None:
        """All faults of a record's form."""
        if fields[0] not in EVENTS:
            self.kind(line, number, fields)
            return
        kind = fields[0].decode()
        columns, ranges = columns_of(kind), EVENTS[fields[0]][1:]
        if len(fields) != len(columns) + 1:
            names = ", ".join(with_unit(column.name, f"({column.unit})" if column.unit else "") for column in columns)
            expected = f"{len(columns) + 1}: {kind}, {names}"
            hint = "a number has no decimal comma or point" if len(fields) > len(columns) + 1 else ""
            self.tell(line, None, f"record {number}, {kind}", f"{len(fields)} fields", expected, hint)
            return
        numbers = [read_int(field) for field in fields[1:]]
        for column, key, field, ends in zip(range(2, len(fields) + 1), columns, fields[1:], ranges):
            est = numbers[1] if kind == "read" else None
            least, most = ((PLACE[i] if est is None else est) if end is EST else end for i, end in enumerate(ends))
            self.field(line, column, f"record {number}, {kind} {key.name}", key, field, (least, most))

    def field(self, line: int, column: int, where: str, key: Key, field: bytes, ends: tuple[int, int]) -> None:
        """A field of a record: no number, or one out of its range."""
        number = read_int(field)
        if number is None:
            hint = field_hint(field)
            self.tell(line, column, where, text_of(field), "a whole number, " + span(*ends, key.unit), hint)
        elif not ends[0] <= number <= ends[1]:
            hint = "min is at most est, and max at least est" if key.name in ("min", "max") else ""
            self.tell(line, column, where, with_unit(str(number), key.unit), span(*ends, key.unit), hint)

    def kind(self, line: int, number: int, fields: list[bytes]) -> None:
        """A first field that is no kind of record."""
        first = fields[0].decode("utf-8", "backslashreplace")
        near = nearest(first.strip(), list(KINDS))
        hint = f"{near} is the nearest kind" if near else ""
        if first.startswith("\ufeff"):
            hint = "a byte order mark is skipped at the start of the records alone"
        elif first.strip() in KINDS and first != first.strip():
            hint = "a kind has no spaces around it"
        elif len(fields) == 1 and re.match(r"\w+\s*[;\t ]", first):
            hint = "commas separate the fields"
        elif number == 1 and not near and len(fields) > 1:
            hint = "there is no header row"
        self.tell(line, 1, f"record {number}", text_of(fields[0]), f"one of {', '.join(KINDS)}", hint)

    def meaning(self, placed: Placed) -> list[Refusal]:
        """What a record does, and what refuses it."""
        event = placed.event
        if isinstance(event, Reading):
            return self.reading(event)
        if isinstance(event, Restriction):
            return self.restriction(event, placed.line)
        if isinstance(event, Revocation):
            return self.revocation(event)
        assert isinstance(event, (Stop, Calculated, Limit))
        return refusals(event, self.length)

    def reading(self, event: Reading) -> list[Refusal]:
        if self.last is None or not isinstance(self.last.event, Reading) or event.time >= self.last.event.time:
            return []
        expected = f"at least {self.last.event.time} ds, that of the reading before, on line {self.last.line}"
        return [Refusal("time back", "time", f"{event.time} ds", expected, "a time never goes back")]

    def restriction(self, event: Restriction, line: int) -> list[Refusal]:
        found = []
        if len(self.held) >= MOST_RESTRICTIONS:
            expected = f"at most {MOST_RESTRICTIONS} restrictions at a time: revoke one first"
            found.append(Refusal("too many restrictions", "identity", f"{len(self.held) + 1} restrictions", expected))
        if event.identity in self.held:
            expected = f"an identity that isn't held: line {self.held[event.identity]} has it, and no record revoked it"
            found.append(Refusal("identity in use", "identity", str(event.identity), expected))
        if event.end <= event.start:
            found.append(
                Refusal("restriction value", "end", f"{event.end} cm", f"more than {event.start} cm, its start")
            )
        if self.length is not None and event.end > self.length:
            expected = f"at most {self.length:,} cm, the track's length"
            found.append(Refusal("restriction value", "end", f"{event.end} cm", expected))
        self.held.setdefault(event.identity, line)
        return found

    def revocation(self, event: Revocation) -> list[Refusal]:
        if self.held.pop(event.identity, None) is not None:
            return []
        held = ", ".join(str(identity) for identity in sorted(self.held)) or "none"
        return [Refusal("identity unknown", "identity", str(event.identity), f"a restriction that is held: {held}")]


SPACE, POINT, PLUS = (
    "a space is part of its field",
    "a number has no point: give it in the smaller unit",
    "a number has no +",
)
EMPTY = "the field is empty"
FORMS = {SPACE, POINT, PLUS, EMPTY}  # what is wrong with a field, whichever it is


def field_hint(field: bytes) -> str:
    """Why a field may be no number."""
    if field.strip() != field:
        return SPACE
    if re.fullmatch(rb"-?[0-9]+\.[0-9]*", field):
        return POINT
    if field.startswith(b"+"):
        return PLUS
    return EMPTY if not field else ""
