"""What a driver is shown: speeds and targets worked by hand, the greatest speed among all 501, and how a run ends."""
import random
import unittest

from sdm_evidence.model.display import PASSED, display_speed, is_passed
from sdm_evidence.model.journey import cycles
from sdm_evidence.makers.journeys import make
from sdm_evidence.model.words import collect, open_run

from tests.folders import EXAMPLES

APPROACH = (EXAMPLES / "approach" / "input").read_text().partition("%%")[0]


def read(time, place, speed, accel=0, under=0):
    """A reading whose three front ends are at one place."""
    return f"read,{time},{place},{place},{place},{speed},{accel},{under}"


def shown(*records, changes=()):
    """The lines of the plain train: 100 m long, 1 m/s², level, 160 km/h, an EOA and an SvL at 1000 m, no times."""
    data = APPROACH
    for old, new in changes:
        assert old in data, old
        data = data.replace(old, new)
    lines, err, code = collect(["display"], (data + "%%\n" + "".join(record + "\n" for record in records)).encode())
    assert (err, code) == ("", 0), err
    return lines.splitlines()


class Speeds(unittest.TestCase):
    def test_before_an_end(self):
        # 200.01 m are enough for v²/2 with 20.0005 m/s, 72.002 km/h, and for v²/2 + 4v with 16.396 m/s, 59.03 km/h
        self.assertEqual(shown(read(0, 799_990, 20_000)), ["0,59,72,72,0,E,200010"])
        # a millimetre less than the 200 m of 20 m/s
        self.assertEqual(shown(read(0, 800_000, 0), read(0, 800_001, 0)), ["0,59,72,72,0,-,-", "0,59,71,71,0,-,-"])

    def test_of_a_train_that_stands(self):
        # 100 m: sqrt(200) m/s are 50.9 km/h, -4 + sqrt(216) m/s 38.5
        self.assertEqual(shown(read(0, 900_000, 0)), ["0,38,50,50,0,-,-"])

    def test_far_from_an_end(self):
        # 160 km/h; 5.5 + 0.045 · 50 = 7.75 km/h over it; 7.5 + 0.075 · 50 = 11.25 km/h over it
        end = [
            ("length = 200000", "length = 300000"),
            ("eoa = 100000", "eoa = 200000"),
            ("svl = 100000", "svl = 200000"),
        ]
        self.assertEqual(shown(read(0, 0, 40_000), changes=end), ["0,160,167,171,0,E,2000000"])

    def test_the_least_and_the_greatest(self):
        # past the EOA nothing is allowed; from 10 km before it 500 km/h are, 138.89 m/s, whose way is 9645 m
        fast = [
            ("max_speed = 160", "max_speed = 500"),
            ("speed = 160\n\n", "speed = 500\n\n"),
            ("emergency = 100", "emergency = 200"),
            ("service = 100", "service = 200"),
        ]
        self.assertEqual(
            shown(read(0, 1_000_001, 0), read(0, -9_000_000, 0), changes=fast), ["0,0,0,0,0,-,-", "0,500,500,500,0,-,-"]
        )

    def test_below_a_release_speed(self):
        # the release speed of 36 km/h starts 50 m before the end; there no SBI is below that of the ceiling
        release = [("svl = 100000", "svl = 100000\nrelease = 36")]
        self.assertEqual(
            shown(read(0, 950_000, 5_000), read(0, 950_001, 5_000), changes=release),
            ["0,24,36,36,36,E,50000", "0,36,167,36,36,-,-"],
        )

    def test_with_no_service_brake_in_use(self):
        # 20 m/s and a build-up time of 2 s: 240 m are needed by the EBD, and 200 m by the SBD of the EOA
        changes = [
            ("emergency_time = 0", "emergency_time = 20"),
            ("service_brake = true", "service_brake = false"),
            ("svl = 100000", "svl = 110000"),
        ]
        self.assertEqual(shown(read(0, 800_001, 0), changes=changes)[0].split(",")[2:4], ["71", "81"])

    def test_the_greatest_speed_is_the_only_border(self):
        """Nothing is passed at the speeds up to the one that is shown, and the limit is passed at each above it."""
        rng, situations = random.Random(7), []
        for words, _, data in map(make, range(60)):
            if words == ["run"] and collect(words, data)[2] == 0:
                supervisor, events = open_run(data)
                situations += [(supervisor, rng.choice([cycle.situation for cycle in cycles(supervisor, events)]))]
        self.assertGreater(len(situations), 30)
        for supervisor, situation in rng.sample(situations, 24):
            for name in PASSED:
                v = display_speed(supervisor, situation, name)
                passed = [is_passed(supervisor, situation, name, each) for each in range(501)]
                self.assertEqual(passed, [False] * (v + 1) + [True] * (500 - v))


class Targets(unittest.TestCase):
    def test_the_first_of_equal_limits(self):
        # EOA and SvL, and a fall at an LOA of its speed, have the same curve. 1000 m: sqrt(2000) m/s are 160.997 km/h,
        # -4 + sqrt(2016) m/s 147.24
        self.assertEqual(shown(read(0, 0, 20_000)), ["0,147,160,160,0,E,1000000"])
        fall = "[[track.speed]]\nstart = 90000\nspeed = 72\n\n[authority]"
        (line,) = shown("limit,90000,72", read(0, 0, 20_001), changes=[("[authority]", fall)])
        self.assertEqual(line.split(",")[4:], ["0", "M", "900000"])

    def test_a_target_as_fast_as_the_train_is_none(self):
        self.assertEqual(
            [
                line.split(",")[5:]
                for line in shown("limit,90000,72", read(0, 0, 20_000), read(0, 0, 20_001), read(0, 0, 0))
            ],
            [["-", "-"], ["L", "900000"], ["-", "-"]],
        )

    def test_each_distance_is_from_its_front_end(self):
        reading = "read,0,500000,490000,520000,10000,0,0"
        ends = {"E,500000": [("svl = 100000", "svl = 110000")], "S,480000": [("emergency = 100", "emergency = 50")]}
        for due, changes in ends.items():
            (line,) = shown(reading, changes=changes)
            self.assertEqual(line.split(",", 5)[5], due)

    def test_a_distance_is_never_below_0(self):
        for mm, distance in ((999_999, "1"), (1_000_000, "0"), (1_000_001, "0"), (1_500_000, "0")):
            self.assertEqual(shown(read(0, mm, 1))[0].split(",")[5:], ["E", distance])

    def test_the_target_whose_limit_is_least_and_not_the_nearest(self):
        # from 40 to 36.1 m/s within 300 m, and to 0 within 900 m
        fall = "[[track.speed]]\nstart = 40000\nspeed = 130\n\n[authority]"
        (line,) = shown(read(0, 100_000, 40_000), changes=[("[authority]", fall)])
        self.assertEqual(line.split(",")[5:], ["E", "900000"])

    def test_an_authority_to_a_limit_has_no_release_speed(self):
        lines = shown("end,100000,100000,40", read(0, 0, 100), "limit,100000,50", read(1, 0, 100))
        self.assertEqual([line.split(",")[4] for line in lines], ["40", "0"])


class Runs(unittest.TestCase):
    def test_a_line_for_each_row_and_the_same_end(self):
        for seed in range(0, 90, 2):
            words, _, data = make(seed)
            if words == ["run"]:
                rows, *end = collect(["run"], data)
                lines, *same = collect(["display"], data)
                self.assertEqual(same, end)
                times = lambda text: [line.split(",")[0] for line in text.splitlines()]
                self.assertEqual(times(lines), times(rows))

    def test_words(self):
        for words in (["display", ""], ["display", "1"], ["Display"]):
            self.assertEqual(collect(words), ("", "sdm: bad words\n", 1))

    def test_what_is_held_is_not_asked(self):
        """After an intervention, and again with other restrictions that are gone, the same is shown."""
        first, *_, last = shown(
            read(0, 700_000, 10_000),
            read(1, 990_000, 40_000),
            "restrict,1,0,1,5,0",
            "revoke,1",
            read(1, 700_000, 10_000),
        )
        self.assertEqual(first.split(",")[1:], last.split(",")[1:])
