"""A replayed reading leaves what it leaves where it is worked out; a late row of a long journey is told soon."""
import time
import unittest
from unittest import mock

from sdm.laboratory.events import events_of
from sdm_evidence.makers.line import a_run
from sdm.laboratory.program import Fault
from sdm.laboratory.walk import ALL, Walk, at_row, at_rows
from sdm_evidence.makers.journeys import make
from sdm_evidence.model.outcome import Refused
from sdm_evidence.model.records import event_of, records

from tests.tool import tool

NOTHING = range(10**6, 10**6 + 1)


def left(data, judged):
    """What each record leaves: commands, status except N and I, and time; and how the journey ends."""
    walk = Walk(data, judged)
    found = []
    for _ in walk:
        commands = walk.supervisor.commands
        found.append((commands[:3], commands.status.replace("I", "N"), walk.supervisor.time))
    return found, walk.fault


def events(read, data):
    """The events of the records, and how they end."""
    found = []
    try:
        for event in read(data):
            found.append(event)
    except Refused as refused:
        return found, str(refused)
    return found, ""


class Replay(unittest.TestCase):
    def test_it_leaves_what_the_model_leaves(self):
        compared = 0
        for seed in range(60):
            words, _, data = make(seed)
            try:
                if words == ["run"]:
                    self.assertEqual(left(data, NOTHING), left(data, ALL), seed)
                    compared += 1
            except Fault:
                continue
        self.assertGreater(compared, 25)

    def test_over_a_line_most_readings_are_quiet(self):
        data = a_run(3, 10)
        self.assertEqual(left(data, NOTHING), left(data, ALL))
        walk, quiet, asked = Walk(data, NOTHING), [], []
        is_quiet = walk.replay.is_quiet
        walk.replay.is_quiet = lambda reading: asked.append(reading) or is_quiet(reading) and not quiet.append(reading)
        self.assertGreater(len(list(walk)), len(asked))
        self.assertEqual(len(asked), data.count(b"\nread"))
        self.assertGreater(len(quiet), 0.7 * len(asked))

    def test_a_row_is_the_same_whatever_came_before_it_was_replayed(self):
        data = a_run(4, 8)
        whole = [cycle for _, cycle in Walk(data) if cycle is not None]
        for number in (1, 2, 700, len(whole)):
            before = at_row(data, number)[3]
            self.assertEqual(at_row(data, number)[2].row, whole[number - 1].row)
            self.assertEqual(before, whole[number - 2].decision.commands if number > 1 else before)
        some = [cycle.row for _, cycle, _ in at_rows(data, range(500, 521))]
        self.assertEqual(some, [cycle.row for cycle in whole[499:520]])

    def test_records_are_read_as_the_model_reads_them(self):
        reading = b"read,1,5,4,6,7,8,9"
        for text in (
            b"\xef\xbb\xbf" + reading,
            reading + b"\r\n\r\n\n" + reading + b"\n",
            b'"read",1,5,4,6,7,8,9\n' + reading + b'\nend,1,"2",0\n' + reading + b"\nread,1,5\n",
            reading + b"\nread,1,5,6,6,7,8,9\n",
            reading + b"\nread,1,5,4,6,7,8,9999999\n",
            reading + b"\n+" + reading,
        ):
            self.assertEqual(events(events_of, text), events(lambda data: map(event_of, records(data)), text))
        for text in (reading + b"\n") * 4, b'"read",1,5,4,6,7,8,9\n' * 4:
            with mock.patch("sdm.laboratory.events.MOST_RECORDS", 3):
                found, fault = events(events_of, text)
            self.assertEqual((len(found), fault), (3, "too many events"))


class Late(unittest.TestCase):
    def test_rows_of_a_long_journey_are_told_soon(self):
        """20,000 readings: within 2 s of processor time, as ranges too."""
        data = a_run(1, 95)
        begun = time.process_time()
        code, told, _ = tool("why", "-", "19990..19991", "--program", "/nowhere", data=data)
        self.assertLess(time.process_time() - begun, 2)
        self.assertEqual(code, 0)
        self.assertRegex(told, r"^row 19990\nreading +at (.|\n)*\n\nrow 19991\nreading ")

    def test_what_is_no_range(self):
        for word in ("0", "3..2", "x", "1..", "1..200000"):
            self.assertEqual(tool("why", "-", word)[0], 2)


if __name__ == "__main__":
    unittest.main()
