"""campaign runs what is left, tells the ends, and shows where expected rows differ."""
import csv
import shutil
import tempfile
import unittest
from pathlib import Path

import sdm
from sdm.campaign import statistics
from sdm.laboratory.rows import rows_of
from sdm.laboratory.statistics import Counts, Margin, count
from sdm_evidence.model.records import Reading

from tests.folders import EXAMPLES
from tests.tool import program, tool

# A program whose rows are its input, and which ends with 7 where it reads a row `bad`.
COPIES = (
    'cat > "$0.$$"; cat "$0.$$"; if grep -q bad "$0.$$"; then echo "sdm: bad event 2: line" >&2; exit 7; fi; rm "$0.$$"'
)
# A program that writes the rows of approach where it reads its input.
WRITES = 'cat > "$0.$$"; cmp -s "$0.$$" {0}/approach/input && cat {0}/approach/rows; rm "$0.$$"'
JOURNEYS = {"a": ("1\n", "", "0"), "b": ("2\n3\n", "", "0"), "c": ("4\nbad\n", "sdm: bad event 2: line\n", "7")}


class Campaign(unittest.TestCase):
    def setUp(self):
        room = tempfile.TemporaryDirectory()
        self.addCleanup(room.cleanup)
        self.room, self.folder = Path(room.name), Path(room.name) / "journeys"
        for name, (text, err, code) in JOURNEYS.items():
            place = self.folder / "group" / name
            place.mkdir(parents=True)
            for file, content in (("input", text), ("rows", text), ("err", err), ("code", code)):
                (place / file).write_text(content)

    def campaign(self, *words):
        return tool("campaign", self.folder, "--program", program(self.room, COPIES), "--jobs", "1", *words)

    def test_all_are_run_and_then_what_is_left(self):
        code, told, _ = self.campaign()
        self.assertEqual(code, 0)
        self.assertIn("3 as due, 0 differ, 0 with nothing due, 0 not run", told)
        self.assertRegex(told, r"\n0 +2  done\n7 +1  bad event\n")
        self.assertEqual((self.folder / "group/b/got.rows").read_text(), "2\n3\n")
        (self.folder / "group/a/got.code").write_text("")
        (self.folder / "group/c/got.code").unlink()
        self.assertIn("3 journeys, 2 to run\n2 journeys were run", self.campaign()[1])
        self.assertIn("3 journeys, 0 to run", self.campaign()[1])

    def test_several_processes_do_the_same(self):
        (self.folder / "group/b/rows").write_text("2\n4\n")
        words = ("--program", program(self.room, COPIES))
        code, told, _ = tool("campaign", self.folder, *words, "--jobs", "3")
        self.assertEqual((code, told.splitlines()[0]), (1, "3 journeys, 3 to run"))
        self.assertIn("2 as due, 1 differ, 0 with nothing due, 0 not run", told)
        self.assertEqual((self.folder / "group/c/got.code").read_text(), "7\n")
        self.assertEqual(sdm.campaign.statistics(str(self.folder)).journeys[1].verdict, "differs")

    def test_a_program_that_is_killed_has_the_code_of_a_shell(self):
        tool("campaign", self.folder, "--program", program(self.room, "kill -9 $$"), "--jobs", "2")
        self.assertEqual((self.folder / "group/a/got.code").read_text(), "137\n")

    def test_differences_and_parts(self):
        (self.folder / "group/b/rows").write_text("2\n4\n")
        for file in ("rows", "err", "code"):
            (self.folder / "group/a" / file).unlink()
        self.assertIn("1 journeys, 1 to run", self.campaign("--part", "2/2")[1])
        code, told, _ = self.campaign()
        self.assertEqual(code, 1)
        self.assertIn("3 journeys, 2 to run", told)
        self.assertIn("group/b differs\n  row 2 differs\n    due      4\n    made     3\n", told)
        self.assertIn("1 as due, 1 differ, 1 with nothing due, 0 not run", told)

    def test_another_line_or_code_is_told(self):
        (self.folder / "group/a/code").write_text("7\n")
        (self.folder / "group/b/err").write_text("sdm: bad words\n")
        code, told, _ = self.campaign()
        self.assertEqual(code, 1)
        self.assertIn("group/a differs\n  the code differs\n    due      7\n    made     0\n", told)
        self.assertIn(
            "group/b differs\n  the fault line differs\n    due      sdm: bad words\n    made     (none)\n", told
        )
        self.assertIn("1 as due, 2 differ", told)

    def test_no_line_and_0_are_due_where_their_files_are_absent(self):
        for name in JOURNEYS:
            (self.folder / "group" / name / "err").unlink()
            (self.folder / "group" / name / "code").unlink()
        told = self.campaign()[1]
        self.assertIn(
            "group/c differs\n  the fault line differs\n    due      (none)\n    made     sdm: bad event 2: line\n",
            told,
        )
        self.assertIn("2 as due, 1 differ", told)

    def test_of_upgrade_the_table_is_due_and_not_its_layout(self):
        folder = self.folder / "group/a"
        (folder / "args").write_text("upgrade\n")
        (folder / "rows").write_text("a = 1\n[b]\nc = [{d = true}]\n")
        both = lambda due, made: f"    due      {due}\n    made     {made}\n"
        for text, due in (
            ("b = {c = [{d = true}]} # here\na = 0x1\n", ""),
            ("a = 1\n[b]\nc = [{d = false}]\n", both("b.c[1].d = True", "b.c[1].d = False")),
            ("a = 1\n", both("b.c[1].d = True", "(no such row)")),
            ("a = 1.0\n[b]\nc = [{d = true}]\n", both("a = 1", "a = 1.0")),
            ("a = 1\n[b]\nc = [{d = true}]\n#\n%%\n", "group/a differs\n"),
        ):
            (folder / "input").write_text(text)
            told = self.campaign("--again")[1]
            self.assertIn(due, told)
            self.assertIn("2 as due, 1 differ" if due else "3 as due, 0 differ", told)

    def test_statistics(self):
        """Those of approach, counted by hand from its rows and its readings."""
        shutil.copytree(EXAMPLES / "approach", self.folder / "approach")
        words = ("--program", program(self.room, WRITES.format(EXAMPLES)), "--jobs", "1", "--statistics")
        _, told, _ = tool("campaign", self.folder, *words, "--csv", self.room / "summary.csv")
        found = statistics(self.folder)
        self.assertEqual([each.name for each in found.journeys], ["approach", "group/a", "group/b", "group/c"])
        approach = found.journeys[0]
        self.assertEqual((approach.verdict, approach.code, approach.readings, approach.covered), ("as due", 0, 4, 3))
        self.assertEqual(approach.commanded, {"tco": 2, "sb": 1, "eb": 2})
        self.assertEqual(approach.set, {"tco": 1, "sb": 1, "eb": 1})
        self.assertEqual((approach.first_set, approach.fastest_row), ({"tco": 1, "sb": 2, "eb": 2}, 1))
        self.assertEqual(approach.statuses, {"W": 1, "X": 2, "N": 1})
        self.assertEqual(approach.states, {"T": 3, "C": 1})
        self.assertEqual(approach.margins, {"ebi": Margin(-10, 2), "permitted": Margin(-80_010, 2)})
        self.assertEqual((approach.fastest_mm_s, approach.way_mm), (20_000, 100_010))
        self.assertGreater(approach.microseconds, 0)
        self.assertEqual((found.readings, found.commanded("eb"), found.journeys[1].readings), (4, (2, 1, 1), 0))
        self.assertIn("least way from the max safe front end to EBI: -10 mm, approach row 2\n", told)
        self.assertRegex(told, r"\nslow: [\d.]+ ms, \d readings, ")
        with open(self.room / "summary.csv", newline="") as file:
            lines = list(csv.DictReader(file))
        self.assertEqual([line["journey"] for line in lines], [each.name for each in found.journeys])
        self.assertEqual(
            (lines[0]["eb_readings"], lines[0]["least_to_ebi_mm"], lines[0]["status_X"]), ("2", "-10", "2")
        )

    def test_a_train_that_stands_has_no_way_to_a_limit(self):
        (row,) = rows_of("50,C,N,0,0,0,1,160,1000000,1000000,-,-,-\n")
        reading = Reading(50, 1_000_010, 1_000_010, 1_000_010, 0, 0, 0)
        self.assertEqual(count(Counts(), [(row, reading)]).margins, {})
        found = count(Counts(), [(row, reading._replace(speed=1))])
        self.assertEqual(found.margins, {"ebi": Margin(-10, 1)})

    def test_what_can_t_be_run(self):
        self.assertIn("There is no program at", tool("campaign", self.folder, "--program", self.room / "none")[2])
        self.assertIn("a part is K/N", tool("campaign", self.folder, "--part", "3/2")[2])
        (self.room / "empty").mkdir()
        self.assertIn("has no journey in it", tool("campaign", self.room / "empty")[2])
