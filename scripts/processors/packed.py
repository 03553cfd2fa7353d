"""Journeys as bytes for c/portable/run_packed.c: data parts, records as numbers, and what is due after each. A number
is written in groups of seven bits, the lowest first, its sign in the lowest bit; so no order of bytes is asked for.

    count of journeys
    of each: name, what is told of readings (TOLD), data part, status of the opening, its line, steps
    of each step: its kind (KINDS), its numbers or its data part, the status that is due, and of a reading the answer

A text or a data part is its length and its bytes. Records of a form that the program refuses end a journey: it is the
program that reads text, and not the library."""
from __future__ import annotations

from collections.abc import Iterable, Iterator
from dataclasses import astuple

from sdm.laboratory.cases import Case
from sdm.laboratory.program import Fault
from sdm.records import Record, record_of
from sdm.rows import RULES, STANDINGS, STATES, SUPERVISIONS, TARGETS, TEXTS, Rule, SdmError, Status
from sdm_evidence.makers.changes import Journey
from sdm_evidence.makers.journeys import record as fields_of
from sdm_evidence.makers.toml_text import toml
from sdm_evidence.model.data import split
from sdm_evidence.model.outcome import Outcome
from sdm_evidence.model.records import records

TOLD = ["run", "display", "why"]
KINDS = ["read", "end", "endcalc", "limit", "restrict", "revoke"]
CHANGE = len(KINDS)  # a change of data
LAST = CHANGE + 1  # no further step
REFUSALS = {text: status for status, text in TEXTS.items()}
OPENINGS = {0: Status.DONE, 7: Status.DONE, 5: Status.BAD_DATA, 6: Status.REFUSED}  # by exit status


def number(value: int) -> bytes:
    """A number with its sign."""
    left, found = (value << 1) if value >= 0 else (-value << 1) - 1, bytearray()
    while left >= 0x80:
        found.append(left & 0x7F | 0x80)
        left >>= 7
    return bytes([*found, left])


def text(data: bytes) -> bytes:
    """A text or a data part."""
    return number(len(data)) + data


def place(field: str) -> Iterator[int]:
    """The numbers of a place of a row: whether it is there, and where."""
    yield from (0, 0) if field == "-" else (1, int(field))


def row(fields: list[str]) -> Iterator[int]:
    """The numbers of a row, as sdm_row has them."""
    yield int(fields[0])
    yield STATES.index(fields[1])
    yield SUPERVISIONS.index(fields[2])
    yield from map(int, fields[3:8])
    for field in fields[8:13]:
        yield from place(field)


def display(fields: list[str]) -> Iterator[int]:
    """The numbers of what a driver is shown, except the target's speed, which the program doesn't write."""
    yield from map(int, fields[:5])
    yield TARGETS.index(fields[5])
    yield 0 if fields[6] == "-" else int(fields[6])


def cause(field: str) -> Iterator[int]:
    """The numbers of a cause: rule, target, its place, its speed, its limit."""
    if not field.startswith("target "):
        yield from (RULES.index(field), 0, 0, 0, 0)
        return
    _, letter, *numbers = field.split(" ")
    yield from (Rule.TARGET.number, TARGETS.index(letter), *map(int, numbers))


def causes(fields: list[str]) -> Iterator[int]:
    """The numbers of causes, the standings first."""
    yield int(fields[0])
    yield from map(STANDINGS.index, fields[5:8])
    for field in fields[1:5]:
        yield from cause(field)


ANSWERS = {"run": row, "display": display, "why": causes}


def step(record: Record, status: int, answer: Iterable[int]) -> bytes:
    """A record with what is due."""
    numbers = [KINDS.index(record.kind), *(int(value) for value in astuple(record)), status, *answer]
    return b"".join(map(number, numbers))


def record_or_none(fields: list[bytes]) -> Record | None:
    """The record that fields write; none where their form is refused."""
    try:
        return record_of([field.decode("latin-1") for field in fields])
    except (ValueError, SdmError):
        return None


def refusal(case: Case) -> Status:
    """The status of the record that ends a case."""
    assert case.due is not None
    words = case.due.err.rstrip("\n").split(": ", 2)
    return REFUSALS.get(words[2] if len(words) == 3 else "", Status.DONE)


def steps(case: Case, lines: bytes) -> Iterator[bytes]:
    """The steps of a case up to the first record of a form that is refused."""
    assert case.due is not None
    answers = iter(case.due.rows.splitlines())
    found = [record_or_none(fields) for fields in records(lines)]
    refused = int(case.due.err.split()[3].rstrip(":")) if case.due.code == 7 else 0
    for count, record in enumerate(found, 1):
        if record is None or count == refused and refusal(case) == Status.DONE:
            return
        if count == refused:
            yield step(record, refusal(case), ())
            return
        is_read = record.kind == "read"
        yield step(record, Status.DONE, ANSWERS[case.words[0]](next(answers).split(",")) if is_read else ())


def journey(case: Case) -> bytes | None:
    """A case as bytes; none where it says nothing of the library: another command, an end that only the program has."""
    if case.due is None or case.words not in [[word] for word in TOLD] or case.due.code not in OPENINGS:
        return None
    try:
        data, lines = split(case.data)
    except Outcome:
        return None
    status = OPENINGS[case.due.code]
    line = b"" if status == Status.DONE else case.due.err.encode()
    head = text(case.name.encode()) + number(TOLD.index(case.words[0])) + text(data) + number(status) + text(line)
    whole = b"".join(steps(case, lines)) if status == Status.DONE else b""
    return head + whole + number(LAST)


def change(name: str, made: Journey) -> bytes:
    """A journey over several data parts, whose last change is refused where there is a refusal."""
    found = text(name.encode()) + number(TOLD.index("run"))
    for count, part in enumerate(made.parts):
        is_last = count == len(made.parts) - 1
        if count:
            found += number(CHANGE)
        found += text(toml(part.document).encode()) + number(Status.DONE) + text(b"")
        if count:
            refused = bool(made.refusal) and is_last
            found += number(Status.BAD_PLACES if refused else Status.DONE)
            if refused:
                break
        answers = iter(part.rows)
        for event in part.events:
            record = record_of(fields_of(event))
            found += step(
                record, Status.DONE, row(next(answers).rstrip("\n").split(",")) if record.kind == "read" else ()
            )
    return found + number(LAST)


def packed(journeys: list[bytes]) -> bytes:
    """Journeys in one."""
    if not journeys:
        raise Fault("there is no journey to pack")
    return number(len(journeys)) + b"".join(journeys)
