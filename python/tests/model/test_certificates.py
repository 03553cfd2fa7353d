"""Certificates: claims and texts worked by hand, the marks of a reading by their definition, and what must hold of all
marks that hold."""
import random
import unittest

from sdm_evidence.model.certificates import Claim, Mark, marks_of, until_it_works, written_segments
from sdm_evidence.makers.certified import a_certify, a_check
from sdm_evidence.model.checker import hold
from sdm_evidence.model.curves import BrakeCurve
from sdm_evidence.model.decelerations import brakes_of
from sdm_evidence.model.units import GRAINS_PER_CM, NOTCHES_PER_KM_H
from sdm_evidence.model.words import collect

from tests.folders import EXAMPLES
from tests.model.test_by_cells import slope, small_data, walk

PLAIN = (EXAMPLES / "approach" / "input").read_text().partition("%%")[0] + "%%\n"
REALISTIC = (EXAMPLES / "realistic" / "input").read_text().partition("%%")[0] + "%%\n"
LIMIT = ('kind = "end"\neoa = 100000\nsvl = 100000', 'kind = "limit"\nloa = 100000\nspeed = 160')
AT_20 = "read,0,799990,799990,799990,20000,0,0\n"
# 20 m/s at 799.99 m: 20²/2 m at 1 m/s² before 1000 m; an energy is 5·10¹²·100 times the square of 1,080,000
ONE = """map,100,1,1
seg,0,200000000000
claim,0,431994600000000,1080000,0,0,0,0,540000000000000,2
mark,432000000000000,583200000000000000000000000
mark,540000000000000,0
"""


def certify(count, records, data=PLAIN):
    return collect(["certify", str(count)], (data + records).encode())


def check(text):
    return collect(["check"], text.encode())


class Written(unittest.TestCase):
    def test_one(self):
        self.assertEqual(certify(1, AT_20), (ONE, "", 0))

    def test_a_claim_of_the_realistic_train(self):
        # 40 m/s and 0.5 m/s are 2,187,000 notches; 0.5 m/s² count as 0.4 while the brake builds up; 3305 m, 5050 m
        text, _, _ = certify(1, "read,0,3300000,3295000,3305000,40000,50,500\n", REALISTIC)
        self.assertIn("\nclaim,0,1784700000000000,2187000,50,40,0,30,2727000000000000,4\n", text)

    def test_the_first_covered_readings_and_the_end_of_the_journey(self):
        # the second reading is a millimetre past the EBI
        records = AT_20 + "read,0,800001,800001,800001,20000,0,0\n" + "read,1,800001,800001,800001,0,0,0\n" * 2
        text, _, _ = certify(2, records)
        self.assertEqual([line.split(",")[1] for line in text.splitlines() if line.startswith("claim")], ["0", "1"])
        self.assertEqual(certify(1, AT_20 + "read,0\n"), (ONE, "sdm: bad event 2: field count\n", 7))
        self.assertEqual(certify(1, "read,0\n"), (ONE[: ONE.index("claim")], "sdm: bad event 1: field count\n", 7))

    def test_none_under_a_limit(self):
        self.assertEqual(certify(9, AT_20, PLAIN.replace(*LIMIT)), (ONE[: ONE.index("claim")], "", 0))

    def test_a_train_that_stands(self):
        self.assertTrue(
            certify(1, "read,7,0,0,0,0,0,0\n")[0].endswith(
                "claim,7,0,0,0,0,0,0,540000000000000,1\nmark,540000000000000,0\n"
            )
        )

    def test_words(self):
        for words in (
            ["certify"],
            ["certify", "0"],
            ["certify", "1001"],
            ["certify", "1", "1"],
            ["check", "1"],
            ["Check"],
        ):
            self.assertEqual(collect(words, ONE.encode()), ("", "sdm: bad words\n", 1))
        self.assertEqual(collect(["certify", "0001"], (PLAIN + AT_20).encode()), (ONE, "", 0))


class Checked(unittest.TestCase):
    def test_one_and_what_is_changed_of_it(self):
        self.assertEqual(check(ONE), ("0,yes\n", "", 0))
        for old, new in (
            ("540000000000000,2", "539999999999999,2"),
            ("mark,432000000000000", "mark,432000000000001"),
            ("200000000000", "9999999999"),
            ("1080000", "1080001"),
            ("431994600000000", "432000000000001"),
        ):
            self.assertEqual(check(ONE.replace(old, new, 1)), ("0,no\n", "", 0), new)

    def test_lines(self):
        lines = ONE.splitlines(keepends=True)
        for text, number in ((ONE.replace(lines[-1], ""), 5), ("", 1), ("\n", 1), (lines[0], 2), (ONE + "\n", 6)):
            rows, err, code = check(text)
            self.assertEqual((rows, err, code), ("0,yes\n" * (number == 6), f"sdm: bad event {number}: line\n", 7))
        self.assertEqual(check(ONE[:-1]), ("0,yes\n", "", 0))
        self.assertEqual(
            check(ONE + ONE[ONE.index("claim") :].replace("claim,0", "claim,5") + "mark,0,0"),
            ("0,yes\n5,yes\n", "sdm: bad event 9: line\n", 7),
        )

    def test_the_second_acceleration_stands_as_it_is(self):
        # 0.4 m/s² for 1 s after none: 20.4 m/s, 20.2 m; 20.4²/2 m before 1000 m
        claim = Claim(0, 0, 1_080_000, 0, 40, 0, 10, 0)
        self.assertEqual(until_it_works(claim), (1_101_600, 20_200 * 540_000_000))
        self.assertEqual(
            until_it_works(claim._replace(A1=100, T_traction=20)),
            (1_080_000 + 108_000 + 21_600, (42_000 + 22_200) * 540_000_000),
        )


def by_cells(data, brake, claim):
    """The marks of a reading as CERTIFICATES says it: knots by the walk over cells, then the changes between them."""
    v_bec, _ = until_it_works(claim)
    svl = claim.svl
    ends = [(svl, 0)] + [(walk(data, "safe", svl, 0, v, True), brake.square(v)) for v in brake.uppers if v < v_bec]
    ends.append((walk(data, "safe", svl, 0, v_bec, True), brake.square(v_bec)))
    marks = []
    for band, ((late, energy), (early, _)) in enumerate(zip(ends, ends[1:])):
        marks.append(Mark(late, energy))
        at = lambda cell: slope(data, "safe", data.train.band[band], cell)[0]
        for cell in range(late // GRAINS_PER_CM + 1, early // GRAINS_PER_CM - 1, -1):
            border = cell * GRAINS_PER_CM
            if early < border < late and at(cell) != at(cell - 1):
                lost = sum(
                    27 * at(c) * (min(late, (c + 1) * GRAINS_PER_CM) - c * GRAINS_PER_CM)
                    for c in range(cell, -(-late // GRAINS_PER_CM))
                )
                marks.append(Mark(border, energy + lost))
    marks += [Mark(*ends[-1])] * (ends[-1][0] != svl)
    return marks[::-1]


class Marks(unittest.TestCase):
    def setUp(self):
        self.rng = random.Random(5)

    def a_claim(self, brake):
        v = self.rng.choice([0, 1, *brake.uppers, self.rng.randint(0, 25 * NOTCHES_PER_KM_H)])
        return Claim(0, 0, v, 0, 0, 0, 0, self.rng.choice([0, 300, self.rng.randint(0, 600)]) * GRAINS_PER_CM)

    def test_by_their_definition(self):
        for _ in range(150):
            data = small_data(self.rng)
            brake = brakes_of(data)["safe"]
            claim = self.a_claim(brake)
            self.assertEqual(marks_of(brake, claim), by_cells(data, brake, claim))

    def test_they_hold_and_a_grain_later_they_do_not(self):
        for _ in range(150):
            brake = brakes_of(small_data(self.rng))["safe"]
            claim = self.a_claim(brake)
            marks = marks_of(brake, claim)
            claim = claim._replace(front=marks[0].place)
            self.assertTrue(hold(brake, claim, marks))
            self.assertFalse(hold(brake, claim._replace(front=claim.front + 1), marks))
            if len(marks) > 1:
                later = [marks[0]._replace(place=marks[0].place + 1), *marks[1:]]
                self.assertFalse(hold(brake, claim, later))

    def test_what_holds_is_not_past_the_exact_curve(self):
        """Of marks that are moved at random, those that hold have the front end with D_bec at most at the exact EBD."""
        held = 0
        for _ in range(2_000):
            brake = brakes_of(small_data(self.rng))["safe"]
            claim = self.a_claim(brake)
            moved = [
                Mark(
                    mark.place + self.rng.choice([0, 0, -1, 1, -(10**9), 10**9]),
                    mark.energy + self.rng.choice([0, 0, -1, 1]),
                )
                for mark in marks_of(brake, claim)
            ]
            claim = claim._replace(front=moved[0].place - self.rng.choice([0, 1]))
            if hold(brake, claim, moved):
                held += 1
                self.assertLessEqual(claim.front, BrakeCurve(brake, claim.svl, 0, exact=True).place(claim.speed))
        self.assertGreater(held, 200)

    def test_the_map_has_no_segment_like_the_one_before(self):
        for _ in range(100):
            brake = brakes_of(small_data(self.rng))["safe"]
            segments = written_segments(brake)
            self.assertEqual(segments[0][0], 0)
            self.assertTrue(all(one[1] != next_[1] for one, next_ in zip(segments, segments[1:])))
            for cell in range(-2, 1_000, 7):
                here = [slopes for start, slopes in segments if start <= max(cell, 0)][-1]
                self.assertEqual(here, brake.slopes[sum(border <= cell * GRAINS_PER_CM for border in brake.borders)])


class Made(unittest.TestCase):
    def test_what_is_certified_is_answered_by_yes(self):
        claims = 0
        for seed in range(80):
            text, _, _ = collect(*a_certify(seed))
            rows, err, code = check(text)
            if text:
                self.assertEqual((err, code), ("", 0))
                self.assertEqual([row.split(",")[1] for row in rows.splitlines()], ["yes"] * text.count("claim"))
            claims += text.count("claim")
        self.assertGreater(claims, 80)

    def test_made_texts_tell(self):
        ends = [collect(*a_check(seed)) for seed in range(80)]
        self.assertEqual({code for _, _, code in ends}, {0, 7})
        self.assertGreater(sum("no" in rows for rows, _, _ in ends), 5)
        self.assertEqual(a_check(3), a_check(3))
