"""Where the service brake stops a train, and whether a release speed has a trip place: worked by hand in m and m/s."""
import unittest

from sdm import Allowance, End, Limit, Reading, SdmError, Status, Supervisor

from ..folders import EXAMPLES

DATA = (EXAMPLES / "approach" / "input").read_text().partition("%%\n")[0]
# Each brake of approach's train has 1 m/s², at once; T_bs is made 1 s here.
LATE = DATA.replace("service_time = 0", "service_time = 10")
AT_800_M = Reading(0, 800_000, 799_000, 801_000, 20_000, 300, 10_000)


class Stops(unittest.TestCase):
    def setUp(self):
        self.supervisor = Supervisor(LATE)
        self.addCleanup(self.supervisor.close)

    def test_the_first_clear_place(self):
        """20 m and 200 m; with 21 m/s 21 m and 220.5 m; gaining 1 m/s² 20.5 m and 220.5 m."""
        clear_of = self.supervisor.clear_of
        self.assertEqual(clear_of(AT_800_M), 1_020_000)
        self.assertEqual(clear_of(AT_800_M, Allowance(front_mm=1_000)), 1_021_000)
        self.assertEqual(clear_of(AT_800_M, Allowance(speed_mm_s=1_000)), 1_041_500)
        self.assertEqual(clear_of(AT_800_M, Allowance(accel_cm_s2=100)), 1_041_000)

    def test_no_place_past_the_track(self):
        """60 m/s take 60 m and 1,800 m, and the track ends after 2 km."""
        self.assertIsNone(self.supervisor.clear_of(Reading(0, 800_000, 799_000, 801_000, 60_000)))

    def test_a_trip_place(self):
        """2 m before the SvL a train stops from 7.2 km/h, 1.90 m before it from 7.02 and 1.89 m from 6.9994 km/h."""
        for release, width, excess, due in (
            (7, 0, 0, True),
            (8, 0, 0, False),
            (7, 10, 0, True),
            (7, 11, 0, False),
            (6, 0, 277, True),
            (6, 0, 278, False),
            (0, 200, 0, True),
            (0, 201, 0, False),
        ):
            self.supervisor.end(End(100_000, 100_200, release))
            self.assertIs(self.supervisor.has_trip_place(width, excess), due, (release, width, excess))
        self.supervisor.limit(Limit(100_000, 100))
        self.assertFalse(self.supervisor.has_trip_place(0, 0))

    def test_what_is_refused(self):
        for allowance in (Allowance(10_000_001), Allowance(0, 10_001), Allowance(0, 0, 301), Allowance(-1)):
            with self.assertRaises(SdmError) as refused:
                self.supervisor.clear_of(AT_800_M, allowance)
            self.assertEqual(refused.exception.status, Status.OUT_OF_RANGE)
        with self.assertRaises(SdmError) as refused:
            self.supervisor.has_trip_place(-1, 0)
        self.assertEqual(refused.exception.status, Status.OUT_OF_RANGE)
        self.supervisor.close()
        for call, words in ((self.supervisor.clear_of, [AT_800_M]), (self.supervisor.has_trip_place, [0, 0])):
            with self.assertRaises(SdmError) as refused:
                call(*words)
            self.assertEqual(refused.exception.status, Status.CLOSED)
