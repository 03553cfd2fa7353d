"""Many readings at once are judged as one by one, and soon."""
import time
import unittest

import numpy as np

import sdm
from sdm import Reading, SdmError, Status, Supervisor

from tests.folders import EXAMPLES

DATA = (EXAMPLES / "realistic" / "input").read_text().partition("%%\n")[0]
COUNT = 100_000


def many(count):
    """Readings of a train that comes near to its end of authority, and is often too fast."""
    numbers = np.arange(count)
    place = 3_000_000 + 20 * (numbers * 7919 % 90_000)
    return sdm.readings(
        time_ds=5 * numbers,
        est_mm=place,
        min_mm=place - 5_000,
        max_mm=place + 5_000,
        speed_mm_s=numbers * 31 % 44_001,
        under_mm_s=500,
    )


def values_of(readings):
    """Readings as values."""
    return [Reading(*reading) for reading in readings.tolist()]


class Batch(unittest.TestCase):
    def test_it_judges_as_one_by_one(self):
        readings = many(3_000)
        with Supervisor(DATA) as supervisor, Supervisor(DATA) as other:
            due = "".join(other.cycle(Reading(*reading)).text() for reading in readings.tolist())
            self.assertEqual(sdm.text(supervisor.cycles(readings)), due)
        self.assertEqual(sdm.text(sdm.run(DATA, [Reading(*reading) for reading in readings.tolist()])), due)
        self.assertIn(",1,1,1,", due)

    def test_it_ends_at_a_reading_that_is_refused(self):
        readings = many(100)
        readings["time_ds"][60] = 0
        with Supervisor(DATA) as supervisor, self.assertRaises(SdmError) as caught:
            supervisor.cycles(readings)
        self.assertEqual(caught.exception.status, Status.TIME_BACK)
        self.assertTrue(str(caught.exception).startswith("reading 61: time back: time_ds 0 ds, est_mm "))
        self.assertEqual(sdm.text(caught.exception.rows), sdm.text(sdm.run(DATA, readings[:60])))

    def test_a_number_out_of_its_range_is_named(self):
        for name, value, told in (
            ("min_mm", 2**40, "min_mm is 1,099,511,627,776 mm, expected -10,000,000 to 3,"),
            ("speed_mm_s", -1, "speed_mm_s is -1 mm/s, expected 0 to 138,888 mm/s"),
        ):
            readings = many(100)
            readings[name][60] = value
            for call in (lambda: sdm.run(DATA, readings), lambda: sdm.run(DATA, values_of(readings))):
                with self.assertRaises(SdmError) as caught:
                    call()
                self.assertEqual((caught.exception.status, len(caught.exception.rows)), (Status.OUT_OF_RANGE, 60))
                self.assertRegex(str(caught.exception), r"^(reading|record) 61: out of range: ")
                self.assertIn(told, str(caught.exception))

    def test_readings_of_any_form(self):
        readings = many(50)
        due = sdm.text(sdm.run(DATA, readings))
        values = values_of(readings)
        for other in (values, sdm.frame(readings), iter(values), "".join(value.text() for value in values)):
            self.assertEqual(sdm.text(sdm.run(DATA, other)), due)
        with Supervisor(DATA) as supervisor:
            self.assertEqual(sdm.text(supervisor.cycles(values)), due)

    def test_what_is_shown_and_causes_are_those_of_single_calls(self):
        readings = many(2_000)
        shown, told = sdm.display(DATA, readings), sdm.causes(DATA, readings)
        with Supervisor(DATA) as supervisor:
            values = []
            for reading in values_of(readings):
                supervisor.cycle(reading)
                values.append((supervisor.display(reading), supervisor.causes(reading)))
        for array, held in ((shown, [each for each, _ in values]), (told, [each for _, each in values])):
            self.assertTrue(sdm.frame(array).equals(sdm.frame(held)))
        self.assertGreater(sdm.frame(shown).distance_mm.notna().sum(), 50)
        self.assertGreater((told["emer_rule"] == "target").sum(), 10)

    def test_how_long_it_takes(self):
        """A step of Python for each reading would take several times as long; the figure is told, and none asserted."""
        readings = many(COUNT)
        with Supervisor(DATA) as supervisor:
            begun = time.process_time()
            rows = supervisor.cycles(readings)
            at_once = time.process_time() - begun
        with Supervisor(DATA) as supervisor:
            some = [Reading(*reading) for reading in readings[: COUNT // 20].tolist()]
            begun = time.process_time()
            for reading in some:
                supervisor.cycle(reading)
            each = 20 * (time.process_time() - begun)
        print(f"{COUNT} readings: {at_once:.3f} s at once, {each:.3f} s one by one")
        self.assertEqual(len(rows), COUNT)
        self.assertLess(3 * at_once, each)
