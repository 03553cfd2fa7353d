"""Readings and rows as values, arrays and frames have the same names and types, nothing is cut, and each message names
the field, its value and what is expected."""
import dataclasses
import subprocess
import sys
import tempfile
import unittest
from pathlib import Path

import numpy as np
import pandas

import sdm
from sdm import Cause, Causes, Display, Reading, Row, Rule, SdmError, Standing, State, Status, Supervision, Target

from tests.folders import EXAMPLES, TOP

SOME = Reading(10, 3_000_000, 2_995_000, 3_005_000, 40_000, -90, 500)
ROWS = [
    Row(0, State.CEILING, Supervision.NORMAL, False, False, False, True, 160, None, None, None, None, None),
    Row(5, State.TARGET, Supervision.INTERVENTION, True, False, True, False, 80, -7, 2**40, 3, 4, 5),
]
# A caller's file, which uses what is exported.
CALLER = """import sdm
from sdm import Reading, Supervisor, frame

def braked(data: str, speeds: list[int]) -> list[bool]:
    with Supervisor(data) as supervisor:
        return [supervisor.cycle(Reading(0, 0, 0, 0, speed)).eb for speed in speeds]

def told(data: str) -> str:
    try:
        rows: sdm.Array = sdm.run(data, "")
    except sdm.SdmError as why:
        return f"{why.status.name}: {why}"
    except sdm.Error:
        return ""
    page: str = sdm.report(data, "").html
    return sdm.text(rows) + page + str(len(frame(rows))) + str(sdm.campaign.statistics("journeys").readings)

state: sdm.State = sdm.State.TARGET
results: list[dict[str, object]] = sdm.sweep("", "", {"train.length": range(3)})
"""


def rows_by_hand():
    """The rows of examples/interventions by the columns of its file."""
    lines = (EXAMPLES / "interventions" / "rows").read_text().splitlines()
    return [line.split(",") for line in lines]


def as_row(fields):
    """A row of the program as a value."""
    places = [None if field == "-" else int(field) for field in fields[8:]]
    flags = [field == "1" for field in fields[3:7]]
    return Row(int(fields[0]), State(fields[1]), Supervision(fields[2]), *flags, int(fields[7]), *places)


class Tables(unittest.TestCase):
    def test_one_notation(self):
        names = [field.name for field in dataclasses.fields(Row)]
        self.assertEqual(list(sdm.ROW.names), names)
        self.assertEqual(list(sdm.frame(ROWS).columns), names)
        self.assertEqual(list(sdm.READING.names), [field.name for field in dataclasses.fields(Reading)])
        self.assertEqual(list(sdm.frame([SOME]).columns), list(sdm.READING.names))

    def test_flags_choose_rows(self):
        lines = rows_by_hand()
        held = [as_row(fields) for fields in lines]
        array, frame = sdm.array(held), sdm.frame(held)
        due = [int(fields[0]) for fields in lines if fields[5] == "1"]
        self.assertGreater(len(due), 5)
        self.assertEqual(array["time_ds"][array["eb"]].tolist(), due)
        self.assertEqual(array["time_ds"][~array["eb"]].tolist(), [int(f[0]) for f in lines if f[5] == "0"])
        self.assertEqual(list(frame[frame.eb].time_ds), due)
        self.assertEqual(
            list(frame[~frame.eb & frame.tco].time_ds), [int(f[0]) for f in lines if f[3:6:2] == ["1", "0"]]
        )

    def test_times_and_speeds_are_signed(self):
        readings = sdm.readings(time_ds=[0, 5], est_mm=0, min_mm=0, max_mm=0, speed_mm_s=[40_000, 39_000])
        self.assertEqual(np.diff(readings["speed_mm_s"]).tolist(), [-1000])
        self.assertEqual(list(sdm.frame(ROWS).time_ds - 100), [-100, -95])
        self.assertEqual({str(sdm.READING[name]) for name in sdm.READING.names}, {"int64"})

    def test_a_limit_may_be_missing(self):
        array, frame = sdm.array(ROWS), sdm.frame(ROWS)
        self.assertTrue(np.isnan(array["ebi_mm"][0]))
        self.assertEqual(array["sbi_mm"][1], 2**40)
        self.assertEqual((frame.ebi_mm.isna().tolist(), frame.sbi_mm[1]), ([True, False], 2**40))
        self.assertEqual(str(frame.ebi_mm.dtype), "Int64")

    def test_words_are_those_of_the_program(self):
        array, frame = sdm.array(ROWS), sdm.frame(ROWS)
        for words in (array["state"], frame.state, [row.state for row in ROWS]):
            self.assertEqual([word == "T" for word in words], [False, True])
            self.assertEqual([word == State.TARGET for word in words], [False, True])
        self.assertEqual((frame.status >= "W").tolist(), [False, True])
        self.assertEqual(sorted("XWOIN", key=Supervision), list("NIOWX"))
        self.assertTrue(Supervision.NORMAL < Supervision.INDICATION <= "I" < Supervision.OVERSPEED >= "O" > "N")

    def test_words_of_different_kinds_are_never_equal(self):
        kinds = (Status, State, Supervision, Target, Rule, Standing)
        members = [member for kind in kinds for member in kind]
        self.assertEqual(len(set(members)), sum(map(len, kinds)))
        self.assertNotEqual(Supervision.NORMAL, Status.DONE)

    def test_there_and_back(self):
        text = (EXAMPLES / "interventions" / "rows").read_text()
        held = [as_row(fields) for fields in rows_by_hand()]
        for rows in (held, sdm.array(held), sdm.frame(held), sdm.frame(held).assign(more=1)):
            self.assertEqual(sdm.text(rows), text)
        _, _, records = (EXAMPLES / "interventions" / "input").read_text().partition("%%\n")
        readings = sdm.readings(sdm.records_of(records))
        self.assertEqual("".join(Reading(*each).text() for each in readings.tolist()), records)
        frame = sdm.frame(readings)
        for other in (frame, frame.astype("Int64"), frame.assign(more=1.5), list(sdm.records_of(records)), readings):
            self.assertEqual(sdm.readings(other).tolist(), readings.tolist())
        short = sdm.readings(frame[["time_ds", "est_mm", "min_mm", "max_mm", "speed_mm_s"]])
        self.assertEqual((short["time_ds"].tolist(), short["under_mm_s"].sum()), (readings["time_ds"].tolist(), 0))

    def test_what_is_shown_and_causes(self):
        shown = [Display(0, 1, 2, 3, 0, Target.NONE, 0, None), Display(5, 1, 2, 3, 4, Target.EOA, 0, 7)]
        self.assertEqual(sdm.frame(shown).distance_mm.isna().tolist(), [True, False])
        past = Cause(Rule.TARGET, Target.SVL, 0, 5, -6)
        told = Causes(
            0,
            Standing.OFF,
            Standing.SET,
            Standing.OFF,
            None,
            None,
            Cause(Rule.CEILING, Target.NONE, *3 * (None,)),
            past,
        )
        frame = sdm.frame([told])
        self.assertEqual((frame.emer_rule[0], frame.emer_target[0], frame.emer_limit_mm[0]), ("target", "S", -6))
        self.assertEqual(
            (frame.serv_rule[0], frame.over_rule.isna()[0], frame.serv_limit_mm.isna()[0]), ("ceiling", True, True)
        )


class Numbers(unittest.TestCase):
    def told(self, kind, call):
        with self.assertRaises(kind) as caught:
            call()
        self.assertIsInstance(caught.exception, sdm.Error)
        return str(caught.exception)

    def test_nothing_is_cut(self):
        for value in (3_280_000.9, 3.0, float("nan"), "1", None, np.float64(2.5), pandas.NA):
            for kind in (TypeError, sdm.KindError):
                told = self.told(kind, dataclasses.replace(SOME, est_mm=value).text)
                self.assertIn(f"est_mm is {value!r}", told)
                self.assertIn("expected a whole number of mm", told)

    def test_numbers_of_numpy_are_taken(self):
        for kind in (np.int64, np.uint8, np.int32):
            self.assertEqual(dataclasses.replace(SOME, time_ds=kind(7)).text()[:7], "read,7,")
        restriction = sdm.Restriction(*np.array([1, 2, 3, 50]), np.bool_(True))
        self.assertEqual(restriction.text(), "restrict,1,2,3,50,1\n")

    def test_columns(self):
        given = {name: [value] for name, value in vars(SOME).items()}
        for change, kind, told in (
            ({"time_ds": [0.5]}, sdm.KindError, "time_ds of row 1 is 0.5"),
            ({"time_ds": [1, float("nan")]}, sdm.KindError, "time_ds of row 1 is 1.0"),
            ({"time_ds": pandas.array([1, None], "Int64")}, sdm.KindError, "time_ds of row 2 is <NA>"),
            ({"more": 1}, sdm.FormError, "expected time_ds, est_mm, min_mm"),
            ({"time_ds": [1, 2], "est_mm": [1, 2, 3]}, sdm.FormError, "the columns differ in length"),
            ({"speed_mm_s": [-1]}, SdmError, "reading 1: speed_mm_s is -1 mm/s, expected 0 to 138,888 mm/s"),
            ({"min_mm": [3_000_001]}, SdmError, "min_mm is 3,000,001 mm, expected -10,000,000 to 3,000,000 mm"),
            ({"time_ds": [2**70]}, SdmError, "time_ds has numbers beyond 64 bits"),
            ({"time_ds": np.array([2**63], np.uint64)}, SdmError, "time_ds has numbers beyond 64 bits"),
        ):
            with self.subTest(change):
                self.assertIn(told, self.told(kind, lambda: sdm.readings(**given | change)))
        for values in (5, "abc", None, [5], np.zeros(3), pandas.DataFrame({"time_ds": [1]})):
            self.assertIn(
                "expected an array, a frame or a list of Row", self.told(sdm.KindError, lambda: sdm.frame(values))
            )

    def test_rows_of_a_caller(self):
        frame, array = sdm.frame(ROWS), sdm.array(ROWS)
        array["sbi_mm"][1] = 0.5
        for rows, told in (
            (array, "sbi_mm of row 2 is 0.5; expected a whole number or none"),
            (frame.assign(sbi_mm=[0.5, 1]), "sbi_mm of row 1 is 0.5; expected a whole number or none"),
            (frame.assign(time_ds=[0.5, 1]), "time_ds of row 1 is 0.5"),
            (frame.assign(state="TT"), "state has other words than C, T, R"),
            (frame.assign(eb=[0, float("nan")]), "eb has other values than True and False"),
            ([dataclasses.replace(ROWS[0], ebi_mm=0.5)], "ebi_mm is 0.5, of the type float"),
        ):
            for call in (sdm.array, sdm.frame):
                self.assertIn(told, self.told(sdm.KindError, lambda: call(rows)))
        self.assertEqual(sdm.text(frame.assign(eb=[0, 1])), sdm.text(ROWS))

    def test_words_of_a_report(self):
        data, _, records = (EXAMPLES / "interventions" / "input").read_text().partition("%%\n")
        rows, files = [as_row(fields) for fields in rows_by_hand()], EXAMPLES / "interventions"
        told = self.told(sdm.FormError, lambda: sdm.report(data, records, rows, mapping=files / "mapping.toml"))
        self.assertEqual(told, "a mapping is given and no recording")
        words = {"recording": files / "recording.csv", "mapping": files / "mapping.toml", "mm": -1}
        told = self.told(sdm.FormError, lambda: sdm.report(data, records, rows, **words))
        self.assertEqual(told, "mm is -1, expected a number from 0 on")

    def test_a_text_is_told_as_values_are(self):
        for text, kind, told in (
            ("read,1,2\n", sdm.FormError, "record 1: field count: 3, expected 8: read, time_ds, est_mm"),
            ("limit,1,5\nroad,1\n", sdm.FormError, "record 2: unknown kind: 'road', expected read, end"),
            ("limit,1.5,5\n", sdm.FormError, "record 1: field 2: not a number: loa_cm is '1.5'"),
            (
                "limit,1,501\n",
                SdmError,
                "record 1: field 3: out of range: speed_kmh is 501 km/h, expected 1 to 500 km/h",
            ),
        ):
            self.assertIn(told, self.told(kind, lambda: list(sdm.records_of(text))))

    def test_a_data_part(self):
        from sdm.toml_text import toml

        table = {"train": {"length": 5, "band": [{"kdry": 1}, {"kdry": 30.5}]}}
        told = "train.band[2].kdry is 30.5, of the type float; a data part has whole numbers, texts and flags alone"
        self.assertEqual(self.told(sdm.KindError, lambda: toml(table)), told)
        table["train"]["band"][1]["kdry"] = np.int64(30)
        self.assertIn("kdry = 30\n", toml(table))


class Names(unittest.TestCase):
    def test_what_is_offered(self):
        self.assertEqual(dir(sdm), sorted([*sdm.__all__, "__version__"]))
        self.assertEqual(sorted(sdm.__all__), sorted(["campaign", *sdm._HOME]))
        for name in sdm.__all__:
            self.assertIsNotNone(getattr(sdm, name))
            self.assertIn(name, vars(sdm), "it is cached")
        with self.assertRaises(AttributeError):
            sdm.nothing
        told = subprocess.run(
            [sys.executable, "-c", "import sdm; print(sdm.campaign.OUTCOMES[0], hasattr(sdm, 'Any'))"],
            env={"PYTHONPATH": str(TOP / "python")},
            capture_output=True,
            text=True,
        )
        self.assertEqual(told.stdout, "done True\n", "the module has it, and doesn't offer it")

    def test_one_base_of_errors(self):
        for error, other in (
            (sdm.SdmError, Exception),
            (sdm.KindError, TypeError),
            (sdm.FormError, ValueError),
            (sdm.ImportFault, ValueError),
            (sdm.Fault, Exception),
        ):
            self.assertTrue(issubclass(error, sdm.Error) and issubclass(error, other))

    def test_a_caller_s_file_is_typed(self):
        """By mypy --strict, without the settings of this repository: it finds the mistake in the last line alone."""
        with tempfile.TemporaryDirectory() as room:
            path = Path(room) / "caller.py"
            path.write_text(CALLER + "wrong: int = sdm.text([])\n")
            words = [
                "mypy",
                "--strict",
                "--cache-dir",
                room,
                "--config-file",
                "/dev/null",
                "--follow-imports",
                "silent",
            ]
            paths = {"MYPYPATH": str(TOP / "python"), "PATH": "/usr/bin:/bin"}
            done = subprocess.run([*words, path], env=paths, capture_output=True, text=True)
        due = f'{path}:{CALLER.count(chr(10)) + 1}: error: Incompatible types in assignment (expression has type "str"'
        self.assertTrue(done.stdout.startswith(due), done.stdout + done.stderr)
        self.assertIn("Found 1 error in 1 file", done.stdout)


class Compared(unittest.TestCase):
    def test_a_frame_of_differences(self):
        """A recording of two rows: an EBI that lies 3 m too far, and a place that is missing."""
        rows = [dataclasses.replace(row, ebi_mm=1000 + i, sbi_mm=5) for i, row in enumerate(ROWS)]
        recorded = [dataclasses.replace(rows[0], ebi_mm=4000), dataclasses.replace(rows[1], sbi_mm=None, tco=False)]
        with tempfile.TemporaryDirectory() as room:
            path = Path(room) / "recording.csv"
            path.write_text(sdm.text(recorded))
            for held in (rows, sdm.frame(rows), sdm.array(rows)):
                found = sdm.compare(held, path)
                self.assertEqual(
                    found.astype(object).where(found.notna(), None).values.tolist(),
                    [
                        [1, 1, 0, "ebi_mm", 1000, 4000, 3000.0],
                        [2, 2, 5, "tco", "1", "0", None],
                        [2, 2, 5, "sbi_mm", 5, None, None],
                    ],
                )
            self.assertEqual(len(sdm.compare(rows, path, mm=3000)), 2)
            for word in ({"mm": -1}, {"kmh": float("nan")}, {"ds": -2}):
                with self.assertRaisesRegex(sdm.FormError, "expected a number from 0 on"):
                    sdm.compare(rows, path, **word)
