"""Whether a reading that hasn't come would be covered, and each up to it that asks no more: worked by hand."""
import unittest

from sdm import Reading, Restriction, SdmError, Status, Supervisor

from ..folders import EXAMPLES

DATA = (EXAMPLES / "approach" / "input").read_text().partition("%%\n")[0]


def at(min_mm, max_mm, time_ds=0):
    """A reading at 25 m/s."""
    return Reading(time_ds, max_mm, min_mm, max_mm, 25_000)


class Ahead(unittest.TestCase):
    def setUp(self):
        self.supervisor = Supervisor(DATA)
        self.addCleanup(self.supervisor.close)

    def test_a_fall_is_asked_for_until_the_min_safe_front_end_is_past_it(self):
        """At 500 m the speed falls to 80 km/h, with 7.5 km/h to its EBI: 17.12 m before it with 1 m/s² at once."""
        self.supervisor.restrict(Restriction(1, 50_000, 60_000, 80, 0))
        for min_mm, max_mm, one, each in (
            (482_880, 482_880, True, True),
            (482_881, 482_881, False, False),
            (470_000, 482_880, True, True),
            (470_000, 482_881, False, False),
            (510_000, 510_000, True, True),
            (500_000, 510_000, True, True),
            (499_999, 510_000, True, False),
        ):
            asked = at(min_mm, max_mm)
            self.assertIs(self.supervisor.would_cover(asked), one, (min_mm, max_mm))
            self.assertIs(self.supervisor.would_cover_up_to(asked), each, (min_mm, max_mm))

    def test_nothing_is_taken(self):
        """The time of what was asked isn't that of the last reading."""
        for asked in (self.supervisor.would_cover, self.supervisor.would_cover_up_to):
            self.assertIs(asked(at(0, 0, 100)), True)
        self.assertEqual(self.supervisor.cycle(at(0, 0, 50)).time_ds, 50)

    def test_what_is_refused(self):
        for asked in (self.supervisor.would_cover, self.supervisor.would_cover_up_to):
            with self.assertRaises(SdmError) as refused:
                asked(Reading(0, 0, 1, 1, 0))
            self.assertEqual(refused.exception.status, Status.OUT_OF_RANGE)
            self.assertEqual(str(refused.exception), "out of range: min_mm is 1 mm, expected -10,000,000 to 0 mm")
            with self.assertRaises(TypeError):
                asked(Restriction(1, 0, 1, 80, 0))
        self.supervisor.close()
        for asked in (self.supervisor.would_cover, self.supervisor.would_cover_up_to):
            with self.assertRaises(SdmError) as refused:
                asked(at(0, 0))
            self.assertEqual(refused.exception.status, Status.CLOSED)
