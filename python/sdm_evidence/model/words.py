"""Words, outcomes, input and output (FORMATS "Commands", "How a run ends")."""
import os
from collections.abc import Callable, Iterable
from typing import TypeVar

from sdm_evidence.model.causes import causes_text
from sdm_evidence.model.certificates import certify
from sdm_evidence.model.checker import check_lines
from sdm_evidence.model.data import Data, data_of, read_document, split, table_of
from sdm_evidence.model.display import display_of
from sdm_evidence.model.drive import drive_lines
from sdm_evidence.model.flat import flat_rows
from sdm_evidence.model.journey import Supervisor, cycles
from sdm_evidence.model.outcome import Outcome, Refused
from sdm_evidence.model.records import read_int
from sdm_evidence.model.layout import laid_out
from sdm_evidence.model.trial import trial_lines

T = TypeVar("T")
MOST_BYTES = 16_777_216


def opened(open_over: Callable[..., T], data: Data, *more: int) -> T:
    """What is opened over data; the refusal of an opening is told with its code."""
    try:
        return open_over(data, *more)
    except Refused as refused:
        raise Outcome(6, f"refused: {refused}") from None


def open_run(data: bytes) -> tuple[Supervisor, bytes]:
    """The supervisor and the bytes of the records of an input of `run`: library users begin here."""
    table, events = split(data)
    return opened(Supervisor, data_of(read_document(table))), events


def number_word(word: str, least: int, most: int) -> int:
    """FORMATS "Commands": a number among the words, in the form of numbers and within its range."""
    number = read_int(os.fsencode(word))
    if number is None or not least <= number <= most:
        raise Outcome(1, "bad words")
    return number


def not_too_long(data: bytes) -> bytes:
    if len(data) > MOST_BYTES:
        raise Outcome(4, "input too long")
    return data


def rows_of(words: list[str], read: Callable[[], bytes]) -> Iterable[str]:
    """FORMATS "Commands": the lines that these words write, one after the other. Of `upgrade` it is a whole text, of
    which the table alone is due."""
    match words:
        case ["run"]:
            return (cycle.row.text() for cycle in cycles(*open_run(not_too_long(read()))))
        case ["display"]:
            supervisor, events = open_run(not_too_long(read()))
            return (display_of(supervisor, cycle.situation).text() for cycle in cycles(supervisor, events))
        case ["why"]:
            supervisor, events = open_run(not_too_long(read()))
            return (causes_text(supervisor, cycle) for cycle in cycles(supervisor, events))
        case ["certify", count]:
            most = number_word(count, 1, 1_000)
            return certify(*open_run(not_too_long(read())), most)
        case ["check"]:
            return check_lines(not_too_long(read()))
        case ["flat", A, END]:
            return flat_rows(number_word(A, 5, 400), number_word(END, 0, 10_000_000), not_too_long(read()))
        case ["upgrade"]:
            return [laid_out(table_of(data_of(read_document(not_too_long(read())))))]
        case ["drive", number, count]:
            numbers = number_word(number, 0, 65_535), number_word(count, 1, 100_000)
            return opened(drive_lines, data_of(read_document(not_too_long(read()))), *numbers)
        case ["trial", number, count]:
            return trial_lines(number_word(number, 0, 65_535), number_word(count, 1, 100_000))
    raise Outcome(1, "bad words")


def run(words: list[str], read: Callable[[], bytes]) -> tuple[str, str, int]:
    """FORMATS "How a run ends": the rows, the line that tells the outcome ("" for done), and the code."""
    rows = []
    try:
        for row in rows_of(words, read):
            rows.append(row)
    except Outcome as outcome:
        return "".join(rows), f"sdm: {outcome.line}\n", outcome.code
    except MemoryError:
        return "".join(rows), "sdm: no memory\n", 8
    return "".join(rows), "", 0


def collect(words: list[str], data: bytes = b"") -> tuple[str, str, int]:
    """A run over an input in the memory."""
    return run(words, lambda: data)


def read_input() -> bytes:
    """FORMATS "How a run ends": standard input to its end, or until it is too long."""
    try:
        with open(0, "rb", closefd=False) as source:
            return source.read(MOST_BYTES + 1)
    except OSError:
        raise Outcome(2, "read fault") from None


def is_written(stream: int, text: str) -> bool:
    """FORMATS "How a run ends": whether a standard stream took a text whole."""
    rest = text.encode()
    try:
        while rest:
            rest = rest[os.write(stream, rest) :]
    except OSError:
        return False
    return True


def main(words: list[str]) -> int:
    """FORMATS "Commands": runs the words over the standard streams and returns the code."""
    rows, fault, code = run(words, read_input)
    if not is_written(1, rows):
        fault, code = "sdm: write fault\n", 3
    is_written(2, fault)  # a fault of standard error changes no code
    return code
