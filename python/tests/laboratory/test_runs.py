"""Runs group rows that differ in the same way, and hide no fault behind another's rows. What is planted is known, and
what the runs must be follows from that."""
import re
import tempfile
import unittest
from dataclasses import replace
from fractions import Fraction
from pathlib import Path

from sdm.diagnosis.runs import Joints, runs_of, told
from sdm.laboratory.comparison import Difference

from tests.tool import tool
from tests.laboratory import planted

ALLOWED = {"mm": 2, "km/h": Fraction(1, 2), "ds": 0}
SMALLER_MARGIN = ("speeds", '"7.5", "0.075", "15"', '"5", "0.075", "15"')
LATE_RELEASE = (
    "triggers",
    "sb, why_sb = command(serv and in_use, before.sb and in_use, slow)",
    'sb, why_sb = command(serv and in_use, before.sb and in_use, "" if over or state_of(situation) != "C" else "slow")',
)


def place(row, column, by, due=1_000_000):
    return Difference(row, row + 1, column, due, due + by, Fraction(abs(by)))


def word(row, column, due, got):
    return Difference(row, row + 1, column, due, got, None)


def runs(found, compared=range(1, 400), **more):
    return runs_of(found, Joints(list(compared), ALLOWED), **more)


class Grouping(unittest.TestCase):
    def test_a_place_and_a_late_release(self):
        """25 m early over rows 41 to 262, and the brake is held from 262 to 267."""
        found = [place(row, name, -25_100) for row in range(41, 263) for name in ("ebi", "sbi")]
        found += [word(row, "eb", "0", "1") for row in range(262, 268)]
        self.assertEqual(
            [told(run) for run in runs(found)],
            ["rows 41 to 262: ebi 25.1 m early; sbi likewise", "rows 262 to 267: eb is 0, in the recording 1"],
        )

    def test_what_grows_with_speed(self):
        """The deviation of a deceleration goes with the square of the speed."""
        found = [place(row, "ebi", -(row**2)) for row in range(50, 100)]
        speeds = {row: Fraction(row) for row in range(50, 100)}
        (run,) = runs(found)
        self.assertEqual(told(run, speeds), "rows 50 to 99: ebi 2.5 m to 9.8 m early, growing with speed")
        falling = {row: 100 - speed for row, speed in speeds.items()}
        self.assertTrue(told(run, falling).endswith("early, falling with speed"))
        self.assertTrue(told(run, dict.fromkeys(speeds, Fraction(50))).endswith("9.8 m early"))

    def test_two_columns_of_their_own(self):
        found = [place(row, "ebi", -500) for row in range(10, 30)] + [
            place(row, "permitted", 7_000) for row in (12, 13)
        ]
        self.assertEqual(
            [told(run) for run in runs(found)], ["rows 10 to 29: ebi 500 mm early", "rows 12 to 13: permitted 7 m late"]
        )

    def test_rows_that_agree_end_a_run(self):
        found = [place(row, "ebi", -500) for row in (10, 11, 17, 18, 25, 26)]
        self.assertEqual([run.numbers for run in runs(found)], [[10, 11, 17, 18], [25, 26]])
        self.assertEqual(len(runs(found, [10, 11, 17, 18, 25, 26])), 1, "rows without a line don't agree")

    def test_a_jump_ends_a_run(self):
        found = [place(row, "ebi", -500 - 10 * row) for row in range(10, 20)]
        found += [place(row, "ebi", -9_000) for row in range(20, 30)]
        self.assertEqual([(run.first, run.last) for run in runs(found)], [(10, 19), (20, 29)])

    def test_a_deviation_that_passes_through_0_is_one(self):
        (run,) = runs([place(row, "ebi", 100 * (row - 20)) for row in range(10, 40) if row != 20])
        self.assertEqual(told(run), "rows 10 to 39: ebi 1 m early to 1.9 m late (29 of these rows differ)")

    def test_rows_of_two_targets_lie_among_one_another(self):
        found = [place(row, "ebi", -21_600 if row % 2 else 2_700) for row in range(10, 50)]
        self.assertEqual(
            [told(run) for run in runs(found)],
            [
                "rows 10 to 48: ebi 2.7 m late (20 of these rows differ)",
                "rows 11 to 49: ebi 21.6 m early (20 of these rows differ)",
            ],
        )

    def test_a_word_that_follows_is_in_the_run_of_its_places(self):
        found = [place(row, "ebi", -500) for row in range(10, 30)]
        found += [word(row, "state", "C", "T") for row in (15, 16, 40)]
        self.assertEqual(
            [told(run) for run in runs(found, follows=lambda each: each.column == "state")],
            ["rows 10 to 29: ebi 500 mm early; state follows in 2", "row 40: state is C, in the recording T"],
        )
        self.assertEqual(len(runs(found)), 3)

    def test_a_command_that_is_held_on_is_in_the_run_of_the_places_that_it_came_from(self):
        """The places are early up to row 29; the brake that they order is held up to row 34. That of row 40 isn't."""
        found = [place(row, "ebi", -500) for row in range(10, 30)]
        found += [word(row, "eb", "0", "1") for row in (*range(25, 35), 40)]
        self.assertEqual(
            [told(run) for run in runs(found, follows=lambda each: True)],
            ["rows 10 to 29: ebi 500 mm early; eb follows in 10, up to row 34", "row 40: eb is 0, in the recording 1"],
        )

    def test_a_ceiling_is_told_rounded(self):
        """136 km/h, and in the recording 36.388 m/s, which is 130.9968 km/h."""
        found = [Difference(7, 7, "ceiling", 136, Fraction("36.388") * Fraction("3.6"), None)]
        found = [replace(each, deviation=abs(each.got - each.due)) for each in found]
        (run,) = runs(found)
        self.assertEqual(told(run), "row 7: ceiling 5.003 km/h low")

    def test_places_on_one_side_alone(self):
        found = [Difference(row, row, "ebi", 5_000, None, None) for row in (7, 8)]
        (run,) = runs(found)
        self.assertEqual(told(run), "rows 7 to 8: ebi is 5000, in the recording -")


class Compared(unittest.TestCase):
    def setUp(self):
        room = tempfile.TemporaryDirectory()
        self.addCleanup(room.cleanup)
        self.room = Path(room.name)

    def told(self, seed, *faults, noise=1, words=(), **given):
        """The runs that compare names for a journey with faults planted, each without what decided it."""
        source = planted.journey(seed, **given)
        for name, data in (
            ("input", source),
            ("rows", planted.rows_by(source).encode()),
            ("recording", planted.recording_of(planted.rows_by(source, faults), seed, noise)),
        ):
            (self.room / name).write_bytes(data)
        named = [self.room / name for name in ("rows", "recording")]
        code, told, _ = tool("compare", *named, "--input", self.room / "input", "--most", 200, *words)
        self.assertEqual(code, 1 if faults else 0)
        part = told.partition("runs of differences")[2].partition("\nrows that differ")[0]
        return [line.strip() for line in part.splitlines()[1:] if line.startswith("  r")]

    def test_noise_within_the_tolerance_makes_no_run(self):
        self.assertEqual(self.told(1, noise=2), [])

    def test_words_that_follow_from_a_wrong_margin_are_no_run(self):
        """The margin is a place's matter alone: each word that differs follows from the places."""
        told = self.told(1, SMALLER_MARGIN)
        self.assertTrue(any("follows in" in line for line in told))
        self.assertEqual([line for line in told if " is " in line], [])

    def test_a_late_release_isn_t_hidden_by_a_wrong_margin(self):
        """Some rows of the late release follow from the places of the recording too; those that don't stand alone."""

        def rows(*faults):
            named = [
                re.match(r"rows (\d+) to (\d+): sb is 0, in the recording 1", line) for line in self.told(1, *faults)
            ]
            return [tuple(map(int, found.groups())) for found in named if found]

        ((first, last),) = rows(LATE_RELEASE)
        ((begin, end),) = rows(SMALLER_MARGIN, LATE_RELEASE)
        self.assertEqual(rows(SMALLER_MARGIN), [])
        self.assertEqual((end, first <= begin < last), (last, True))

    def test_what_decided_a_run(self):
        """A curve of 1 m/s² on level track to an SvL at 1000 m, and an EBI that is 10 m early at 20 m/s."""
        source = planted.TOP.joinpath("examples/approach/input").read_bytes()
        rows = planted.rows_by(source)
        (self.room / "input").write_bytes(source)
        (self.room / "rows").write_text(rows)
        (self.room / "recording").write_text(rows.replace(",800000,800000,760000", ",790000,800000,760000"))
        told = tool("compare", self.room / "rows", self.room / "recording", "--input", self.room / "input")[1]
        self.assertIn(
            "rows 1 to 2: ebi 10 m early\n    72 km/h; along the curve 0 ‰ and 1 m/s²; decided by SvL, max safe front "
            "end; foot speed 0\n",
            told,
        )
