"""Each journey of examples/ and vectors/ by the binding: rows, lines of a fault and codes are those that lie beside its
input, and causes those of the model."""
import re
import unittest

from sdm import Reading, SdmError, Status, Supervisor
from sdm.laboratory.cases import cases_under, difference
from sdm.laboratory.program import Result
from sdm_evidence.model.data import split
from sdm_evidence.model.outcome import Outcome
from sdm_evidence.model.words import collect
from sdm.records import fields_of, record_of
from sdm.rows import TEXTS

from tests.folders import TOP

CODES = {Status.BAD_DATA: 5, Status.REFUSED: 6}
MOST_RECORDS = 100_000
TOLD = {
    "run": lambda supervisor, reading, row: row,
    "display": lambda supervisor, reading, row: supervisor.display(reading),
    "why": lambda supervisor, reading, row: supervisor.causes(reading),
}


def played(word, source):
    """What the program's `run`, `display` or `why` writes of an input, by the binding."""
    lines = []
    try:
        head, rest = split(source)
        supervisor = Supervisor(head)
    except Outcome as why:
        return Result("", f"sdm: {why.line}\n", why.code)
    except SdmError as why:
        return Result("", f"{why}\n", CODES[why.status])
    with supervisor:
        for number, fields in enumerate(fields_of(rest), 1):
            try:
                if number > MOST_RECORDS:
                    raise ValueError("too many events")
                record = record_of(fields)
                row = supervisor.take(record)
            except (ValueError, SdmError) as why:
                return Result("".join(lines), f"sdm: bad event {number}: {program_text(why)}\n", 7)
            if isinstance(record, Reading):
                lines.append(TOLD[word](supervisor, record, row).text())
    return Result("".join(lines), "", 0)


def program_text(why):
    """The program's own text of a fault, of which a message says more."""
    text = str(why)
    if isinstance(why, SdmError) and not text.startswith("field"):
        return TEXTS[why.status]
    known = re.match(r"unknown kind|field count|too many events|field \d+: (not a number|out of range)", text)
    return known[0] if known else text


class Rows(unittest.TestCase):
    def test_each_journey(self):
        played_now = 0
        for case in [*cases_under(TOP / "examples"), *cases_under(TOP / "vectors")]:
            if case.words in (["run"], ["display"]):
                played_now += 1
                with self.subTest(case.name):
                    self.assertEqual(difference(("due", "binding"), case.due, played(case.words[0], case.data)), [])
                    due = Result(*collect(["why"], case.data))
                    self.assertEqual(difference(("model", "binding"), due, played("why", case.data)), [])
        print(f"{played_now} journeys by the binding")
        self.assertGreater(played_now, 400, "`vectors/make` makes most of them")
