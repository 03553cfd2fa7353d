"""The drive: steps worked by hand, what can't be driven, and what must hold of a train that brakes by it."""
import random
import unittest

from sdm_evidence.model.data import data_of, read_document
from sdm_evidence.model.decelerations import brakes_of
from sdm_evidence.model.drive import Drive, TrueTrain, braked, coasted, driven, greatest_slope, reading_of
from sdm_evidence.makers.journeys import a_drive, an_open_document
from sdm_evidence.model.outcome import Outcome
from sdm_evidence.makers.toml_text import toml
from sdm_evidence.model.units import GRAINS_PER_CM, GRAINS_PER_MM, NOTCHES_PER_MM_S
from sdm_evidence.model.words import collect

from tests.folders import EXAMPLES
from tests.model.test_by_cells import small_data

PLAIN = (
    (EXAMPLES / "approach" / "input")
    .read_text()
    .partition("%%")[0]
    .replace("emergency_time = 0", "emergency_time = 20")
)
END = "eoa = 100000\nsvl = 100000"


def lines(number, cycles, *changes):
    """What `drive` makes of the plain train with a build-up time of 2 s: 1 m/s², level, EOA and SvL at 1000 m."""
    text = PLAIN
    for old, new in changes:
        assert old in text, old
        text = text.replace(old, new)
    return collect(["drive", str(number), str(cycles)], text.encode())


def summary(*numbers):
    words = ("cycles", "emergency", "stops", "front", "least")
    return "".join(f"{word} {n}\n" for word, n in zip(words, numbers)), "", 0


class Summaries(unittest.TestCase):
    def test_three_steps(self):
        # 7 gives 58988, 4085 and 19570: accelerations of -19, 39 and 30 cm/s². It stands; then 0.39 · 0.5²/2 m are
        # 48.75 mm up to 0.195 m/s; then 0.195 · 0.5 + 0.30 · 0.5²/2 m are 135 mm
        self.assertEqual([x % 61 - 20 for x in (58988, 4085, 19570)], [-19, 39, 30])
        self.assertEqual(lines(7, 3), summary(3, 0, 0, 184, 999_816))

    def test_an_end_where_it_stands(self):
        # the max safe front end is past 0, where the EBI is, but where x mod 5001 is 0: so the train isn't driven on
        self.assertEqual(lines(7, 1000, (END, "eoa = 0\nsvl = 0")), summary(1000, 0, 0, 0, 0))

    def test_the_same_bytes_again(self):
        self.assertEqual(lines(9, 400), lines(9, 400))
        self.assertNotEqual(lines(9, 400), lines(10, 400))

    def test_what_is_refused_and_in_which_order(self):
        limit = ('kind = "end"\n' + END, 'kind = "limit"\nloa = 100000\nspeed = 30')
        short, weak = ("emergency_time = 20", "emergency_time = 4"), ("emergency = 100", "emergency = 4")
        release = (END, END + "\nrelease = 1")
        for fault, code, *changes in [
            ("not drivable: no stop", 9, limit),
            ("not drivable: release speed", 9, release),
            ("not drivable: emergency time", 9, short),
            ("not drivable: no stop", 9, limit, short, weak),
            ("not drivable: release speed", 9, release, short, weak),
            ("not drivable: emergency time", 9, short, weak),
            ("refused: too weak: safe band 1 cell 0", 6, weak),
            ("refused: beyond track", 6, (END, "eoa = 0\nsvl = 200001")),
            ("bad data: value train.length", 5, ("length = 10000\n", "length = 0\n"), short),
        ]:
            self.assertEqual(lines(7, 3, *changes), ("", f"sdm: {fault}\n", code), fault)
        self.assertEqual(lines(7, 1, ("emergency_time = 20", "emergency_time = 5"))[2], 0)
        self.assertEqual(lines(7, 1, (END, END + "\nrelease = 0"))[2], 0)

    def test_made_drives(self):
        """Most can be driven, many are braked and stop; the same seed makes the same drive."""
        ends = [collect(*a_drive(seed)) for seed in range(60)]
        driven = [dict(line.split() for line in text.splitlines()) for text, _, code in ends if code == 0]
        self.assertEqual({code for _, _, code in ends} - {0, 9}, set())
        self.assertGreater(len(driven), 50)
        self.assertGreater(sum(int(each["emergency"]) > 0 and int(each["stops"]) > 0 for each in driven), 20)
        self.assertEqual(a_drive(7), a_drive(7))

    def test_a_data_part_alone(self):
        with_line = collect(["drive", "7", "3"], (PLAIN + "%%\n").encode())
        self.assertEqual(with_line, ("", "sdm: bad data: not TOML\n", 5))

    def test_words(self):
        for words in (
            ["drive"],
            ["drive", "7"],
            ["drive", "65536", "1"],
            ["drive", "0", "0"],
            ["drive", "0", "100001"],
            ["drive", "-1", "1"],
            ["drive", "0", "1", "1"],
            ["Drive", "0", "1"],
        ):
            self.assertEqual(collect(words, PLAIN.encode()), ("", "sdm: bad words\n", 1))
        self.assertEqual(collect(["drive", "007", "03"], PLAIN.encode()), lines(7, 3))


class Moves(unittest.TestCase):
    def setUp(self):
        self.brake = brakes_of(data_of(read_document(PLAIN.encode())))["safe"]

    def test_a_decisecond_of_each(self):
        # 1 m/s: 100 mm in coasting; with 1 m/s² 100 ± 5 mm
        train = TrueTrain(0, 1000 * NOTCHES_PER_MM_S)
        for after, mm, mm_s in (
            (coasted(train), 100, 1000),
            (braked(self.brake, train), 95, 900),
            (driven(train, 100), 105, 1100),
            (driven(train, -100), 95, 900),
        ):
            self.assertEqual(after, TrueTrain(mm * GRAINS_PER_MM, mm_s * NOTCHES_PER_MM_S))

    def test_the_last_decisecond_of_braking(self):
        # 0.1 m/s are gone after a whole one, 0.06 m/s after 0.06²/2 m, which are 1.8 mm
        for mm_s, um in ((100, 5_000), (60, 1_800), (0, 0)):
            train = braked(self.brake, TrueTrain(0, mm_s * NOTCHES_PER_MM_S))
            self.assertEqual(train, TrueTrain(um * GRAINS_PER_MM // 1000, 0))

    def test_driving_stays_within_its_speeds(self):
        greatest = 138_888 * NOTCHES_PER_MM_S
        self.assertEqual(driven(TrueTrain(0, greatest - 1), 40).speed, greatest)
        self.assertEqual(driven(TrueTrain(0, 100), -20), TrueTrain(100 * 500_000, 0))

    def test_a_braked_train_is_braked_by_the_greatest_slope_at_least(self):
        """The way of a decisecond is no longer than by the greatest slope of its cells and bands, and by coasting."""
        rng = random.Random(3)
        for _ in range(200):
            brake = brakes_of(small_data(rng))["safe"]
            place = rng.randint(-2, 8) * 100 * GRAINS_PER_CM + rng.randint(0, 9)
            w = rng.choice([1, 54, rng.randint(0, 10**6)])
            after = braked(brake, TrueTrain(place, w))
            far = place + 1_000_000 * w
            cells = range(place // GRAINS_PER_CM, far // GRAINS_PER_CM + 1)
            at = lambda cell: brake.slopes[sum(border <= cell * GRAINS_PER_CM for border in brake.borders)]
            slope = max(max(at(cell)) for cell in cells)
            self.assertEqual(greatest_slope(brake, place, far), slope)
            self.assertLessEqual(27 * slope * (after.place - place), brake.square(w) - brake.square(after.speed))
            self.assertLessEqual(after.place, far)


class Readings(unittest.TestCase):
    def test_what_is_read(self):
        # 4085 mod 5001 = 4085, mod 500 = 85, mod 61 = 59
        train = TrueTrain(3 * GRAINS_PER_MM + 1, 1000 * NOTCHES_PER_MM_S + 1)
        self.assertEqual(reading_of(10, 4085, train, False), (10, -911, -5911, 4089, 915, 39, 500))
        self.assertEqual(reading_of(10, 4085, train, True), (10, -911, -5911, 4089, 1001, 39, 0))
        self.assertEqual(reading_of(10, 4085, TrueTrain(0, 54), False).speed, 1)
        for inhibited in (False, True):
            self.assertEqual(reading_of(10, 4085, TrueTrain(0, 0), inhibited).speed, 0)
            self.assertEqual(reading_of(10, 4085, TrueTrain(0, 1), inhibited).speed, 1)


class Drives(unittest.TestCase):
    def test_no_train_passes_its_svl(self):
        """Over made data, and what leads to it: a moving train that isn't within the SvL has the emergency command, and
        an onset counts from the last reading within."""
        rng, drives, onsets = random.Random(11), 0, 0
        while drives < 40:
            document, supervisor = an_open_document(rng, rng.choice([1, 2]))
            document["train"]["emergency_time"] = max(document["train"]["emergency_time"], 5)
            if document["authority"]["kind"] != "end" or "release" in document["authority"]:
                continue
            try:
                drive = Drive(data_of(read_document(toml(document).encode())), rng.randint(0, 65_535))
            except Outcome:
                continue
            drives += 1
            svl, delay = drive.supervisor.authority.svl * GRAINS_PER_CM, sum(drive.supervisor.times[2:4])
            for _ in range(120):
                had, last = drive.onset, drive.last
                step = drive.step()
                within = drive.last == drive.time
                self.assertLessEqual(step.train.place, svl)
                self.assertTrue(within or step.cycle.row.commands.eb or step.cycle.situation.reading.speed == 0)
                if had is None and drive.onset is not None:
                    counted = drive.time if within else last
                    self.assertEqual(drive.onset, (drive.time if counted is None else counted) + delay)
                    onsets += 1
        self.assertGreater(onsets, 5)
