"""An input of `run`, explained: the dividing line, the data part, the opening, the records, and doubts."""
import re
from dataclasses import dataclass

from sdm.exact import (
    DIVIDING_LINE,
    Data,
    EVENTS,
    MOST_BYTES,
    Outcome,
    Refused,
    Supervisor,
    Table,
    Track,
    data_of,
    is_of,
    keys_of,
    read_document,
)

from sdm.findings.data_part import DataPart
from sdm.findings.doubts import doubts
from sdm.findings.finding import Finding
from sdm.findings.opening import opening_faults
from sdm.findings.records_part import RecordsPart, text_of
from sdm.findings.syntax import read_text
from sdm.findings.toml_places import Places

MEANT = re.compile(
    rb"^(?:\xef\xbb\xbf)?[ \t]*%+[ \t]*\r?$\n?", re.MULTILINE
)  # what is likely meant as the dividing line
RECORD = re.compile(rb"^(?:" + b"|".join(EVENTS) + rb"),", re.MULTILINE)


@dataclass(frozen=True)
class Explanation:
    """What the program says of an input, without `sdm: ` and "" where it accepts it, the findings in the order of
    their lines, and how many readings and records were accepted."""

    fault: str
    findings: list[Finding]
    readings: int
    records: int


def explain(text: str | bytes) -> list[Finding]:
    """The faults of an input of `run`; of one that is accepted, what looks wrong in it.

    The input is a data part, the line `%%` and records. Each finding is a Finding, in the order of their lines; an
    input that is accepted and looks right has none. Nothing is raised.
    """
    return explanation(text.encode() if isinstance(text, str) else text).findings


def explanation(data: bytes) -> Explanation:
    """What the program says of an input, and what there is to find."""
    if len(data) > MOST_BYTES:
        found, expected = f"{len(data):,} bytes", f"at most {MOST_BYTES:,}"
        return Explanation("input too long", [Finding(None, None, "input", found, expected)], 0, 0)
    head, rest, divided = parted(data)
    read = read_text(head)
    findings = divided + read.findings
    places = Places(read.text) if read.table is not None else None
    if read.table is not None and places is not None:
        findings += DataPart(read.table, places, read.unread).findings
    fault, accepted = data_fault(head)
    if accepted is not None and places is not None:
        findings += opening_faults(accepted, places)
    first_line = data.count(b"\n", 0, len(data) - len(rest)) + 1
    part = RecordsPart(rest, first_line, track_length(read.table))
    findings += part.findings
    if divided:
        fault = "bad data: no %% line"
    fault = fault or part.fault
    if not fault and accepted is not None:
        findings += doubts(accepted, part.accepted, places)
    findings.sort(key=lambda each: (each.line or 0, each.column or 0))
    return Explanation(fault, findings, len(part.readings()), len(part.accepted))


def parted(data: bytes) -> tuple[bytes, bytes, list[Finding]]:
    """The data part and the records; where no line divides them, they are parted where one is meant or due."""
    line = DIVIDING_LINE.search(data)
    if line is not None:
        return data[: line.start()], data[line.end() :], []
    meant, record = MEANT.search(data), RECORD.search(data)
    expected = "a line that is exactly %% between the data part and the records"
    if meant is not None:
        found = text_of(meant[0].rstrip(b"\r\n"))
        finding = Finding(data.count(b"\n", 0, meant.start()) + 1, 1, "dividing line", found, expected)
        return data[: meant.start()], data[meant.end() :], [finding]
    if record is not None:
        begin = record.start()
        number = data.count(b"\n", 0, begin) + 1
        finding = Finding(number, 1, "dividing line", "the first record", expected, "it is due before this line")
        return data[:begin], data[begin:], [finding]
    hint = "upgrade and drive read a data part alone"
    finding = Finding(data.count(b"\n") + 1, None, "dividing line", "the end of the input", expected, hint)
    return data, b"", [finding]


def data_fault(head: bytes) -> tuple[str, Data | None]:
    """The fault of a data part or of its opening, as the program tells it; the data where they are accepted."""
    try:
        data = data_of(read_document(head))
    except Outcome as outcome:
        return outcome.line, None
    try:
        Supervisor(data)
    except Refused as refused:
        return f"refused: {refused}", data
    return "", data


def track_length(table: Table | None) -> int | None:
    """The length of the track, where a data part has one."""
    track = table.get("track") if table is not None else None
    length = track.get("length") if isinstance(track, dict) else None
    own = next(key for key in keys_of(Track) if key.name == "length")
    return length if isinstance(length, int) and is_of(int, length) and own.least <= length <= own.most else None
