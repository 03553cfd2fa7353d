"""Rides: two worked by hand, the premises that all keep, and planted faults that they find."""
import os
import tempfile
import unittest
from collections import Counter
from pathlib import Path
from random import Random

from sdm_evidence.makers import rides
from sdm_evidence.makers.__main__ import run
from sdm.laboratory import program
from sdm_evidence.makers.release_worlds import Broken, a_release_scenario, a_release_world, greatest_release
from sdm_evidence.makers.rides import Asked, NoRide
from sdm_evidence.model.data import data_of, read_document
from sdm_evidence.model.journey import Supervisor
from sdm_evidence.model.speeds import falls
from sdm_evidence.makers.ride_worlds import (
    BY_RELEASE,
    GUARDED,
    Happening,
    Scenario,
    World,
    a_scenario,
    a_world,
    ground_of,
    loss_of,
    scenario_text,
    world_text,
)

from tests.folders import EXAMPLES
from tests.tool import tool

LIBRARY = Path(os.environ.get("SDM_ARCHIVE", program.LIBRARY.path))


def setUpModule():
    """Builds c/rides.c once."""
    global PROGRAM
    folder = tempfile.TemporaryDirectory()
    unittest.addModuleCleanup(folder.cleanup)
    PROGRAM = rides.built(LIBRARY, Path(folder.name))


def plain_ground(authority=None):
    """The train of README, 1 m/s² on a level track with EOA and SvL at 1000 m or another authority, and 2 s until its
    traction is off and its brake works."""
    text = (EXAMPLES / "approach" / "input").read_text().partition("%%")[0]
    for time in ("traction_cutoff_time", "emergency_time"):
        text = text.replace(f"{time} = 0", f"{time} = 20")
    document = read_document(text.encode())
    if authority is not None:
        document["authority"] = authority
    return ground_of(document, Supervisor(data_of(document)))


def world_of(*grounds):
    """A world of grounds, of which the further ones are changed to after 5 s each."""
    happenings = []
    for number, ground in enumerate(grounds):
        supervisor = Supervisor(ground.data)
        happenings.append(Happening(50 * number, ground.data.authority, falls(supervisor.profile), number, True))
    return World(list(grounds), happenings, 0, 0)


# From 739.99 m on at 20 m/s, which the train keeps; a reading each second, and nothing to spare.
BY_HAND = Scenario(
    *(1, 1, 400),
    *(10, 5, 5, 5),
    *(True, 0),
    *(739_990, 20_000),
    *(0, 0, 0, False),
    *(0, 0, 0, 0, 0, 0),
)


def ridden(world, scenario):
    (outcome,) = rides.ridden(PROGRAM, world_text(world) + scenario_text(scenario))
    return outcome


def ride(**changes):
    """What the ride by hand shows, with some numbers changed."""
    return ridden(world_of(plain_ground()), BY_HAND._replace(**changes))


class ByHand(unittest.TestCase):
    """The EBI at 20 m/s is 1000 − 20²/2 − 20 · 2 = 760 m, so the readings at 739.99 and 759.99 m are covered. The one
    at 779.99 m isn't; the brake works 1 s later, at 799.99 m, and the train stands 20 s later at 999.99 m."""

    def test_a_ride_stops_before_the_svl(self):
        # Readings from 0 to 39 s; covered are two at first, and from 23 s on, when it stands, 17.
        self.assertEqual(ride(), rides.RideOutcome("kept", 40, 19, 0, 1, 0, 0, 0, 1, 10))

    def test_at_another_scale(self):
        self.assertEqual(ride(ticks_per_ds=7), ride())

    def test_brakes_a_decisecond_later_pass_it(self):
        self.assertEqual(ride(build_up_ds=6).verdict, "svl")

    def test_an_order_that_is_not_handed_on_passes_it(self):
        self.assertEqual(ride(ignored=1).verdict, "svl")

    def test_stronger_brakes_stop_earlier(self):
        self.assertGreater(ride(stronger_per_mille=100).nearest_mm, 10)

    def test_missing_readings_order_the_brake(self):
        # The first reading is covered; then all come late, and it is braked sooner than by a row.
        outcome = ride(missing_per_mille=1000, seed=5)
        self.assertEqual((outcome.verdict, outcome.overdue > 0), ("kept", True))

    def test_weaker_brakes_than_the_data_claim_pass_it(self):
        self.assertEqual(ride(weaker_per_mille=10).verdict, "svl")

    def test_a_reading_judged_late_orders_as_of_its_moment(self):
        self.assertEqual(ride(is_judged_late=True), ride())

    def test_repeated_readings_are_missing(self):
        """The odometer freezes after each reading, for up to 20 s: it is found missing 1 s after the last one."""
        outcome = ride(repeats_per_mille=1000)
        self.assertEqual((outcome.verdict, outcome.overdue > 0), ("kept", True))

    def test_repeated_readings_that_are_judged_pass_it(self):
        verdicts = {ride(repeats_per_mille=1000, judges_repeated=True, seed=seed).verdict for seed in range(8)}
        self.assertIn("svl", verdicts)

    def test_a_loss_of_a_metre_per_second_squared(self):
        # 1 m/s² takes 0.1 m/s, 5400 notches, in a ds.
        brake = plain_ground().brake
        self.assertEqual([[loss_of(slope, brake) for slope in slopes] for slopes in brake.slopes], [[5400]])


# EOA at 1000 m. From 5 m/s (18 km/h) a train runs 10 m until its brake works and 12.5 m more, so SvL at 1022.5 m.
RELEASED = {"kind": "end", "eoa": 100_000, "svl": 102_250, "release": 18}
CREEPING = BY_HAND._replace(place_mm=900_000, speed_mm_s=5_000, judging=BY_RELEASE)


class WithRelease(unittest.TestCase):
    """At 5 m/s the SBI of the EOA is at 987.5 m, where release speed monitoring begins. Of the readings 5 m apart those
    from 900 to 985 m are covered, and 990, 995 and 1000 m find an untripped train. The one at 1005 m is tripped: the
    brake works 1 s later, at 1010 m, and the train stands at the SvL itself."""

    def release(self, *changes, **changed):
        grounds = [plain_ground(RELEASED), *(plain_ground(authority) for authority in changes)]
        return ridden(world_of(*grounds), CREEPING._replace(**changed))

    def test_a_tripped_train_stops_at_the_svl(self):
        self.assertEqual(self.release(), rides.RideOutcome("kept", 40, 18, 3, 1, 0, 0, 0, 1, 0))

    def test_that_speed_is_the_greatest_with_a_trip_place(self):
        supervisor = Supervisor(plain_ground(RELEASED).data)
        odometer = a_release_world(Random(0), Broken.NONE).odometer._replace(ahead_mm=0, behind_mm=0)
        found = [greatest_release(supervisor, odometer, 0, eoa, 102_250) for eoa in (99_999, 100_000)]
        self.assertEqual(found, [18, 17])  # W is 2 mm, so a centimetre

    def test_by_the_rows_nothing_is_promised_there(self):
        self.assertEqual(self.release(judging=0).released, 0)

    def test_brakes_a_decisecond_later_pass_it(self):
        self.assertEqual(self.release(build_up_ds=6).verdict, "svl")

    def test_a_guarded_ride_brakes_where_nothing_is_promised(self):
        # at 990 m already, so it stands 15 m earlier
        outcome = self.release(judging=GUARDED, excess=-1)
        self.assertEqual((outcome.verdict, outcome.released, outcome.nearest_mm), ("kept", 0, 15_000))

    def test_a_change_to_the_same_data_changes_nothing(self):
        self.assertEqual(self.release(RELEASED), self.release()._replace(changes=1))

    def test_a_refused_change_brakes(self):
        ground = plain_ground(RELEASED)
        beyond_the_track = RELEASED | {"svl": 200_001}
        refused = ground._replace(document=ground.document | {"authority": beyond_the_track})
        outcome = ridden(world_of(ground, refused), CREEPING)
        self.assertEqual((outcome.verdict, outcome.refused, outcome.changes), ("kept", 1, 0))


class Premises(unittest.TestCase):
    def scenarios(self, late):
        rng = Random(11)
        for _ in range(40):
            world = a_world(rng)
            for _ in range(5):
                yield world.held(), a_scenario(rng, world, late, 0)

    def test_the_times_hold_the_delays(self):
        """p + c + K ≤ T_traction and p + c + E ≤ T_traction + T_berem, some of them to the ds."""
        left = set()
        for (traction, whole), scenario in self.scenarios(0):
            after = scenario.period_ds + scenario.latency_ds
            left.add(traction - after - scenario.cut_off_ds)
            left.add(whole - after - scenario.build_up_ds)
        self.assertEqual(min(left), 0)

    def test_a_late_brake_is_a_decisecond_beyond_them(self):
        for (_, whole), scenario in self.scenarios(1):
            until_braked = scenario.period_ds + scenario.latency_ds + scenario.build_up_ds
            self.assertEqual(until_braked, whole + 1)

    def test_a_release_world_keeps_its_bounds(self):
        rng = Random(5)
        for _ in range(20):
            made = a_release_world(rng, Broken.NONE)
            scenario = a_release_scenario(rng, made, Broken.NONE)
            self.assertLessEqual(scenario.ahead_mm + scenario.behind_mm + 2, scenario.width_mm)
            for ground in made.world.grounds:
                self.assertLessEqual(ground.times.T_traction, ground.data.train.emergency_time)

    def test_a_stop_has_the_nearest_svl_for_its_release_speed(self):
        """A centimetre nearer that speed has no trip place any more; in most worlds, since some SvLs lie further on."""
        rng, nearest = Random(6), 0
        for _ in range(20):
            made = a_release_world(rng, Broken.NONE)
            ground, stop = made.world.grounds[0], made.world.happenings[0].event
            supervisor = Supervisor(ground.data)
            excess = made.odometer.excess(ground.times, ground.data.national.inhibit_under_reading)
            there, nearer = (
                greatest_release(supervisor, made.odometer, excess, stop.eoa, svl) for svl in (stop.svl, stop.svl - 1)
            )
            self.assertGreaterEqual(there, stop.release)
            nearest += nearer < stop.release
        self.assertGreater(nearest, 10)


class AtRandom(unittest.TestCase):
    def verdicts(self, *, seed=100, late=0, ignored=0):
        return Counter(each.verdict for each in rides.ride_all(PROGRAM, seed, 200, Asked(late, ignored)))

    def test_all_keep_the_promises_within_the_premises(self):
        self.assertEqual(self.verdicts(), {"kept": 200})

    def test_an_ignored_order_is_found(self):
        self.assertGreater(self.verdicts(ignored=1)["svl"], 0)

    def test_late_brakes_are_found_at_the_svl_and_at_speed_targets(self):
        found = self.verdicts(late=20)
        self.assertGreater(found["svl"], 0)
        self.assertGreater(found["target"], 0)

    def test_the_same_seed_rides_the_same(self):
        self.assertEqual(*(rides.ride_all(PROGRAM, 3, 40, Asked()) for _ in range(2)))

    def released(self, broken, count=400):
        found = rides.ride_all(PROGRAM, 0, count, Asked(has_release=True, broken=broken))
        return Counter(each.verdict for each in found), sum(each.released for each in found)

    def test_no_ride_with_a_release_speed_passes_its_svl(self):
        verdicts, released = self.released(Broken.NONE)
        self.assertEqual(verdicts, {"kept": 400})
        self.assertGreater(released, 0)

    def test_with_any_premise_broken_some_do(self):
        for broken in set(Broken) - {Broken.NONE}:
            with self.subTest(broken.value):
                self.assertGreater(self.released(broken)[0]["svl"], 0)


class Words(unittest.TestCase):
    def test_the_exit_status(self):
        words = ["--rides", 60, "--library", LIBRARY]
        self.assertEqual(tool("rides", *words, run=run)[0], 0)
        self.assertEqual(tool("rides", *words, "--ignored", 1, run=run)[0], 1)

    def test_a_library_that_is_not_there(self):
        code, _, err = tool("rides", "--library", "/nowhere/libsdm_c.a", run=run)
        self.assertEqual((code, err.count("\n")), (2, 1))

    def test_a_text_of_another_form(self):
        for text in (b"ride 1 2 3", b"world 1 3\nabc 0 99", b"world 9 ", b"word"):
            with self.assertRaises(NoRide):
                rides.ridden(PROGRAM, text)


if __name__ == "__main__":
    unittest.main()
