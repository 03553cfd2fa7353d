"""A diagnosis names what was planted in a recording, and accuses nothing where nothing differs. What must be named is
what was planted, by a model whose text was changed; scripts/house try diagnose counts over many more."""
import re
import tempfile
import unittest
from fractions import Fraction
from pathlib import Path

from sdm.diagnosis.fitting import deepest, densest
from sdm.diagnosis.joint import Move, added_up, best_with, solved
from sdm.diagnosis.model import decelerations, journey, limits, triggers
from sdm.diagnosis.numbers import Number
from sdm.diagnosis.rules import Reread
from sdm.diagnosis.scene import MISREADINGS, RuleCase, LookedJourney, Look, Scene, predicted
from sdm.diagnosis.spans import ValueSpan, end_of

from tests.folders import EXAMPLES
from tests.tool import tool
from tests.laboratory import count_diagnoses, kinds, planted

NOTHING = triggers.NOTHING


def named(kind):
    return next(each for each in kinds.OTHERS if each.name == kind)


class Rules(unittest.TestCase):
    def test_each_misreading_takes_the_place_of_a_rule_and_gives_it_back(self):
        """As many as there are names; the rules are those of the model again, whatever happens."""
        before = [(decelerations.A_em, journey.limits_of, limits.T_warning, triggers.over_a_limit)]
        scene = self.scene(planted.journey(3), range(5, 300, 40))
        for name in MISREADINGS:
            predicted(scene, RuleCase((name,)))
        self.assertEqual(before, [(decelerations.A_em, journey.limits_of, limits.T_warning, triggers.over_a_limit)])
        self.assertGreater(len(MISREADINGS), 150)

    def test_misreadings_differ_from_one_another(self):
        """Over four journeys at least 110 of them change rows, and nine tenths of these each in a way of its own."""
        scenes = [self.scene(planted.journey(seed), range(1, 400, 3)) for seed in range(4)]
        own = [predicted(scene, RuleCase()) for scene in scenes]
        made = [[predicted(scene, RuleCase((name,))) for scene in scenes] for name in MISREADINGS]
        changing = [str(cells) for cells in made if cells != own]
        self.assertGreater(len(changing), 110)
        self.assertGreater(len(set(changing)), 0.9 * len(changing))

    def test_without_a_hypothesis_the_rows_are_the_model_s(self):
        source = planted.journey(2)
        scene = self.scene(source, range(1, 300, 7))
        rows = planted.due_rows(source).splitlines()
        for look, cells in zip(scene.looks, predicted(scene, RuleCase())):
            fields = rows[look.row - 1].split(",")
            due = [None if place == "-" else int(place) for place in fields[8:]] + [int(fields[7]), *fields[1:6]]
            self.assertEqual(list(cells), due)

    def scene(self, source, numbers):
        """Some rows of an input, with the commands that the rows before have."""
        held, rows = LookedJourney(source), planted.due_rows(source).splitlines()
        looks = []
        for row in [number for number in numbers if number <= len(rows)]:
            before = NOTHING
            if row > 1:
                _, _, status, *flags = rows[row - 2].split(",")[:6]
                before = triggers.Commands(*(flag == "1" for flag in flags), status)
            looks.append(Look(row, *held.readings[row - 1], before, (), ()))
        return Scene(held.data, tuple(held.authorities), tuple(held.restrictions), tuple(looks), {})

    def test_two_misreadings_of_one_rule_hold_together(self):
        """The guidance curve is left out, and T_bs too: P lies T_driver before the EBI."""
        one = Reread(limits, "T_driver", lambda rule: rule + 10)
        other = Reread(limits, "T_driver", lambda rule: 2 * rule)
        from sdm.diagnosis.model import reread

        with reread([one, other]):
            self.assertEqual(limits.T_driver, 100)
        self.assertEqual(limits.T_driver, 40)


class Numbers(unittest.TestCase):
    def test_where_most_intervals_overlap(self):
        self.assertEqual(densest([(10, 1), (10.5, 1), (11, 1), (30, 1), (31, 1)]), 10.5)
        self.assertEqual(densest([(5, 0.25)]), 5)
        self.assertEqual(deepest([(10, 1), (10.5, 1), (11, 1), (30, 1), (31, 1)]), (10.5, 3))

    def test_the_end_of_a_span(self):
        """An area that ends anywhere from 1500 to 1620 m makes the same of all rows; so does one from 1700 m on, which
        is another matter."""

        def is_same(value):
            return 150_000 <= value <= 162_000 or value >= 170_000

        for value in (150_000, 155_000, 161_990):
            self.assertAlmostEqual(end_of(Fraction(value), Fraction(300_000), is_same), 162_000, delta=30)
            self.assertAlmostEqual(end_of(Fraction(value), Fraction(0), is_same), 150_000, delta=30)
        self.assertEqual(end_of(Fraction(155_000), Fraction(160_000), is_same), 160_000)

    def test_what_a_span_is_told_as(self):
        """A whole value in the middle of a narrow span; from where to where of one wider than a hundredth."""
        self.assertEqual(ValueSpan(Fraction(8115, 10), Fraction(8126, 10)).named, 812)
        self.assertEqual(ValueSpan(Fraction(81_21, 100), Fraction(81_27, 100)).named, Fraction(8_124, 100))
        self.assertFalse(ValueSpan(Fraction(811), Fraction(813)).is_wide)
        self.assertTrue(ValueSpan(Fraction(800), Fraction(820)).is_wide)
        area = Number(("track", "adhesion", 0, "end"), "end of track.adhesion 1", "cm", 127_928)
        told = "end of track.adhesion 1 is from 142772 to 207096 cm, not 127928"
        self.assertEqual(area.between(142_772, 207_096), told)


class AtOnce(unittest.TestCase):
    """Two hypotheses that change the same places; all by hand."""

    def move(self, *by, number=None, rule="one"):
        return Move(RuleCase((rule,)) if number is None else RuleCase(), number, by)

    def test_two_rules(self):
        one, other, third = self.move(100, 200, 300), self.move(10, -20, 30, rule="other"), self.move(1, 1, 9, rule="b")
        pairs = best_with([110.5, 180, 329], [2, 2, 2], [third, one, other], range(3))
        self.assertEqual((pairs[0].one, pairs[0].other, pairs[0].cells), (one, other, 3))

    def test_a_rule_and_a_number(self):
        """300, 500 and 900 mm are off; a rule moves by 100, 100 and 300, a number by 40, 80 and 120 for each unit."""
        number = Number(("train", "service_time"), "service_time", "ds", 30)
        moved = self.move(40, 80, 120, number=number)
        for pair in ((self.move(100, 100, 300), moved), (moved, self.move(100, 100, 300))):
            found = added_up([300, 500, 900], [2, 2, 2], *pair)
            self.assertEqual((found.one.number, found.other.number, found.cells), (None, number, 3))
            self.assertAlmostEqual(found.values[1], 5)

    def test_two_numbers(self):
        """3 of the one's units and -2 of the other's, in all places but one, which something else moves."""
        one, other = [10, 20, 30, 40, 55, 60], [1, 5, 2, 7, 3, 11]
        due = [3 * a - 2 * b for a, b in zip(one, other)]
        due[3] += 5_000
        t, u, cells = solved(due, [2] * 6, one, other)
        self.assertEqual((round(t, 6), round(u, 6), cells), (3, -2, 5))

    def test_a_place_that_is_gone_adds_up_to_nothing(self):
        gone = float("nan")
        found = added_up([5, 5], [2, 2], self.move(5, gone), self.move(0.5, 0, rule="other"))
        self.assertEqual(found.cells, 1)


class Planted(unittest.TestCase):
    """One of each chapter of the profile, and numbers; none of the kinds by which the counts are made."""

    def diagnosed(self, *faults, seed=100):
        _, plant = planted.shown_by([named(fault) for fault in faults], seed)
        return plant, count_diagnoses.diagnosed(plant)

    def test_misreadings_are_named_first(self):
        for fault in ("front cell", "D_bec by V_bec", "ends in R", "end by est"):
            with self.subTest(fault):
                plant, found = self.diagnosed(fault)
                self.assertEqual(count_diagnoses.is_first(found, plant, named(fault)), (True, True))
                told = found.explanations[0]
                self.assertEqual((told.rows, told.broken), (found.differing, 0))
                self.assertLessEqual(told.left_mm, 2)

    def test_a_number_is_found_within_a_hundredth(self):
        for kind in [each for each in kinds.OTHERS if each.number][:3]:
            with self.subTest(kind.name):
                _, plant = planted.shown_by([kind], 100)
                found = count_diagnoses.diagnosed(plant)
                self.assertTrue(count_diagnoses.is_first(found, plant, kind)[1], count_diagnoses.told(found))

    def test_places_and_lengths_between_which_rules_turn(self):
        """A value that is near doesn't lead there: the train passes other gradients and other areas."""
        for path in (("train", "length"), ("track", "adhesion", 0, "end")):
            kind = next(each for each in kinds.OTHERS if each.number[:1] == (path,))
            with self.subTest(kind.name):
                plant, found = self.diagnosed(kind.name, seed=8_000)
                ((of, value),) = found.explanations[0].cases[0].numbers
                self.assertEqual((of, len(found.explanations[0].faults)), (path, 1))
                self.assertAlmostEqual(value, plant.values[path], delta=2)

    def test_what_the_recording_does_not_tell_apart_is_one_finding(self):
        """This train passes an area without the special brake, and none of reduced adhesion, so that nobody can know
        whether the other computer reads both wrong; the narrower misreading stands first."""
        _, found = self.diagnosed("special areas", seed=8_000)
        (fault,) = found.explanations[0].faults
        self.assertEqual(fault.cases[0].rules, ("special_brake_areas_end_with_the_front_end",))
        self.assertIn(("areas_end_with_the_front_end",), [case.rules for case in fault.cases])
        self.assertIn("\n      or areas of adhesion and without the special brake end", str(found))
        self.assertIn("this recording can't say which it is", str(found))

    def test_two_faults_in_the_same_places(self):
        """Neither explains an EBI alone: each moves all of them, the one by a margin, the other by a time."""
        plant = planted.Plant(100, [])
        other, _, time = planted.changed(plant.source, ("train", "emergency_time"), lambda _, value: value + 9, None)
        rows = planted.rows_by(other, named("D_bec by V_bec").texts)
        plant.recording = planted.recording_of(rows, 100, 1)
        found = count_diagnoses.diagnosed(plant)
        cases = found.explanations[0].cases
        self.assertEqual({name for case in cases for name in case.rules}, set(named("D_bec by V_bec").due))
        numbers = [number for case in cases for number in case.numbers]
        self.assertEqual(numbers, [(("train", "emergency_time"), time)])

    def test_a_fault_that_shows_in_one_row(self):
        """The status isn't held, and after its first row the recording's own status leads on."""
        plant, found = self.diagnosed("W not held", seed=8_000)
        self.assertEqual(count_diagnoses.is_first(found, plant, named("W not held")), (True, True))

    def test_three_faults_of_one_recording(self):
        """A smaller margin, the gradient of the front cell alone, and a late release."""
        source = planted.journey(1, rotating_mass=True)
        plant = planted.Plant(1, [])
        plant.source, plant.rows = source, planted.due_rows(source)
        faults = [("speeds", '"7.5", "0.075", "15"', '"5", "0.075", "15"'), *named("front cell").texts]
        plant.recording = planted.recording_of(planted.rows_by(source, [*faults, *LATE.texts]), 1, 1)
        found = count_diagnoses.diagnosed(plant)
        cases = found.explanations[0].cases
        self.assertEqual({name for case in cases for name in case.rules}, {*named("front cell").due, *LATE.due})
        self.assertEqual([number for case in cases for number in case.numbers], [(("profile", "dV_ebi"), 5)])
        self.assertEqual(found.explanations[0].rows, found.differing)

    def test_noise_within_the_tolerance_accuses_nothing(self):
        for seed in (11, 12):
            plant = planted.Plant(seed, [])
            plant.recording = planted.recording_of(plant.recorded, seed, 2)
            found = count_diagnoses.diagnosed(plant)
            self.assertEqual((found.runs, found.explanations), ([], []))

    def test_where_nothing_fits(self):
        """Places that are off by chance: each hypothesis would break more than it explains."""
        plant = planted.Plant(100, [])
        plant.recording = planted.recording_of(plant.recorded, 100, 20_000)
        found = count_diagnoses.diagnosed(plant)
        self.assertTrue(found.runs)
        self.assertTrue(all(told.rows < found.differing / 20 for told in found.explanations))


LATE = next(each for each in kinds.KINDS if each.name == "late sb")


class Tool(unittest.TestCase):
    def setUp(self):
        room = tempfile.TemporaryDirectory()
        self.addCleanup(room.cleanup)
        self.room = Path(room.name)

    def file(self, name, data):
        path = self.room / name
        path.write_bytes(data)
        return path

    def told(self, plant, *words):
        files = [self.file("input", plant.source), self.file("recording.csv", plant.recording)]
        return tool("diagnose", *files, "--rows", self.file("rows", plant.rows.encode()), *words)

    def test_its_lines(self):
        _, plant = planted.shown_by([named("greatest gradient")], 100)
        code, told, err = self.told(plant, "--jobs", 2)
        self.assertEqual((code, err), (1, ""))
        self.assertRegex(told, r"  1\. \(a\) the greatest gradient under the train counts, not the least one\n")
        differing = re.search(r"of which (\d+) differ:", told)[1]
        self.assertIn(f"explains {differing} of {differing} rows wholly, breaks none", told)
        self.assertIn("    explained by: (a) the greatest gradient", told)

    def test_its_status(self):
        rows = EXAMPLES / "approach" / "rows"
        source = EXAMPLES / "approach" / "input"
        code, told, _ = tool("diagnose", source, rows, "--rows", rows)
        self.assertEqual((code, told), (0, "4 rows compared; nothing differs by more than the tolerances\n"))
        self.assertEqual(tool("diagnose", source, self.room / "none", "--rows", rows)[0], 2)
        self.assertIn("No row has the time", tool("diagnose", source, self.later(), "--rows", rows)[2])
        self.assertEqual(tool("diagnose", source)[0], 2)

    def later(self):
        return self.file("later.csv", b"900,T,W,1,0,0,1,160,800000,800000,760000,720000,540000\n")

    def test_the_altered_rows_of_the_example(self):
        """examples/recording has four values altered by hand, each in a row of its own: no rule explains them."""
        files = EXAMPLES / "recording"
        words = ("--rows", files / "rows", "--mapping", files / "mapping.toml", "--mm", 1000, "--jobs", 1)
        code, told, _ = tool("diagnose", files / "input", files / "recording.csv", *words)
        self.assertEqual(code, 1)
        self.assertIn("200 rows compared, 4 runs of differences", told)
        self.assertNotRegex(told, r"explains [34] of 4")

    def test_the_misread_recording_of_the_example(self):
        """misread.csv is of a model whose curves of falls end at the speed of the fall, with noise of 0.3 m. Its rows
        differ from 15 on, where the fall to 60 km/h comes to be a target."""
        files = EXAMPLES / "recording"
        words = ("--rows", files / "rows", "--mapping", files / "mapping.toml", "--mm", 1000, "--jobs", 1)
        code, told, _ = tool("diagnose", files / "input", files / "misread.csv", *words)
        self.assertEqual(code, 1)
        self.assertIn("200 rows compared, 1 run of differences", told)
        self.assertIn("  1. (a) the foot of the EBD has the target's speed without dV_ebi\n", told)
        self.assertIn("  rows 15 to 55: ebi ", told)
        self.assertIn("    explained by: (a) the foot of the EBD has the target's speed without dV_ebi or dV_ebi", told)

    def test_times_that_are_a_little_off(self):
        """A command that comes a cycle late isn't a difference within --ds; so it isn't explained either."""
        rows = (EXAMPLES / "interventions" / "rows").read_text().splitlines()
        first = next(i for i, row in enumerate(rows) if row.split(",")[5] == "1")
        fields = rows[first].split(",")
        fields[5] = "0"
        recording = self.file("late.csv", ("\n".join(rows[:first] + [",".join(fields)] + rows[first + 1 :])).encode())
        words = ("--rows", EXAMPLES / "interventions/rows", "--ds", 20)
        self.assertEqual(tool("diagnose", EXAMPLES / "interventions/input", recording, *words)[0], 0)


class Counts(unittest.TestCase):
    def test_the_kinds_of_the_counts_are_none_of_these(self):
        held_out = {kind.name for kind in kinds.HELD_OUT}
        self.assertEqual(len(held_out), 30)
        self.assertFalse(held_out & {kind.name for kind in kinds.OTHERS})

    def test_each_kind_is_a_change_of_the_model_or_of_the_data(self):
        for kind in kinds.KINDS:
            for module, text, _ in kind.texts:
                self.assertIn(text, (planted.MODEL / f"{module}.py").read_text(), kind.name)
            if not kind.number:
                self.assertTrue(set(kind.due) <= set(MISREADINGS), kind.name)

    def test_a_number_must_be_within_a_hundredth(self):
        kind = kinds.another(("train", "length"), None)
        values = {("train", "length"): 20_000}
        case = RuleCase((), ((("train", "length"), Fraction(20_150)),))
        self.assertTrue(count_diagnoses.names(case, kind, values))
        case = RuleCase((), ((("train", "length"), Fraction(20_250)),))
        self.assertFalse(count_diagnoses.names(case, kind, values))
