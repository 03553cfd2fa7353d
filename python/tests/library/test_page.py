"""The examples of docs/PYTHON.md do what that page says."""
import contextlib
import os
import re
import tempfile
import unittest
from pathlib import Path

import sdm

from tests.folders import EXAMPLES, TOP

BLOCKS = re.findall(r"^```python\n(.*?)^```$", (TOP / "docs" / "PYTHON.md").read_text(), re.M | re.S)

TEN_LINES = """from pathlib import Path
import pandas, sdm
data = Path("examples/realistic/input").read_text().partition("%%")[0]
place = range(3_200_000, 5_200_000, 20_000)
readings = sdm.readings(time_ds=range(0, 500, 5), est_mm=place, min_mm=place, max_mm=place, speed_mm_s=40_000)
variations = {"train.band[2].emergency": range(60, 110, 2), "train.emergency_time": range(0, 80, 2)}
summaries = pandas.DataFrame(sdm.sweep(data, readings, variations))
sdm.plot(data, readings).save("journey.svg")
"""


class Page(unittest.TestCase):
    def test_its_examples(self):
        with tempfile.TemporaryDirectory() as room, contextlib.chdir(room):
            os.symlink(EXAMPLES, "examples")
            table, sweep, loop, stops, recording, report = BLOCKS
            names = {}
            exec(table, names)
            self.assertEqual(sdm.text(names["rows"]), (EXAMPLES / "interventions" / "rows").read_text())
            self.assertEqual(
                list(names["braked"].time_ds), [int(row[0]) for row in rows_of("interventions") if row[5] == "1"]
            )
            self.assertEqual(
                Path("interventions.svg").read_bytes(), (EXAMPLES / "interventions" / "picture.svg").read_bytes()
            )
            exec(sweep, names)
            self.assertEqual((len(names["summaries"]), set(names["summaries"].fault)), (1000, {""}))
            self.assertTrue(
                (names["first_brake"].diff(axis=1).iloc[:, 1:] >= 0).all(axis=None)
            )  # a better brake brakes later
            self.assertTrue(
                (names["first_brake"].diff().iloc[1:] <= 0).all(axis=None)
            )  # one that builds up longer sooner
            exec(loop, names)
            self.assertTrue(5_005.04 < names["stopped"] < 5_005.06 and names["driven"][-1].eb)
            self.assertIn(
                4_941_046, [row.ebi_mm for row in names["driven"]]
            )  # and not 4,953,124, of a train that gains nothing
            exec(stops, names)
            first, second = names["stops"].stands_m
            self.assertEqual(second, names["stopped"])
            self.assertNotEqual(first, second)
            exec(recording, names)
            self.assertTrue((names["differences"].apart.dropna() > 0).all())
            self.assertEqual(sdm.text(names["supervised"]), (EXAMPLES / "recording" / "rows").read_text())
            exec(report, names)
            self.assertIn("200 rows compared", Path("report.html").read_text())

    def test_ten_lines_for_a_thousand_variations_and_a_picture(self):
        self.assertLessEqual(len(TEN_LINES.splitlines()), 10)
        with tempfile.TemporaryDirectory() as room, contextlib.chdir(room):
            os.symlink(EXAMPLES, "examples")
            names = {}
            exec(TEN_LINES, names)
            self.assertEqual(names["summaries"].shape[0], 1000)
            self.assertGreater(names["summaries"].first_eb_ds.nunique(), 30)
            self.assertIn("<title>sdm run: 100 readings</title>", Path("journey.svg").read_text())


def rows_of(example):
    return [line.split(",") for line in (EXAMPLES / example / "rows").read_text().splitlines()]
