"""compare names what was altered in a recording, within its tolerances, and says why it can't compare."""
import tempfile
import unittest
from pathlib import Path

from tests.folders import EXAMPLES
from tests.tool import tool

ROWS = EXAMPLES / "interventions" / "rows"
MAPPING = """
delimiter = ";"
decimal = ","
[time]
column = "t (ms)"
scale = 0.01
[state]
column = "mode"
values = {CSM = "C", TSM = "T", RSM = "R"}
[eb]
column = "EB"
[ceiling]
column = "MRSP (m/s)"
scale = 3.6
[ebi]
column = "EBI"
scale = 1000
shift = 5
none = ["n/a"]
"""
MODES = {"C": "CSM", "T": "TSM", "R": "RSM"}


def rows():
    return [line.split(",") for line in ROWS.read_text().splitlines()]


class Compare(unittest.TestCase):
    def setUp(self):
        self.room = tempfile.TemporaryDirectory()
        self.addCleanup(self.room.cleanup)

    def file(self, name, text):
        path = Path(self.room.name) / name
        path.write_text(text)
        return path

    def recording(self, lines):
        return self.file("recording.csv", "".join(",".join(line) + "\n" for line in lines))

    def own_form(self, change):
        """A recording with columns, units and names of its own."""
        lines = ["t (ms);mode;EB;MRSP (m/s);EBI;more"]
        for number, row in enumerate(rows(), 1):
            values = change(
                number,
                [
                    str(100 * int(row[0])),
                    MODES[row[1]],
                    row[5],
                    f"{int(row[7]) / 3.6:.9f}",
                    "n/a" if row[8] == "-" else f"{(int(row[8]) - 5) / 1000:.3f}",
                    "x",
                ],
            )
            lines.append(";".join(values).replace(".", ","))
        return self.file("own.csv", "\n".join(lines) + "\n"), self.file("mapping", MAPPING)

    def test_the_same_rows(self):
        code, told, _ = tool("compare", ROWS, ROWS)
        self.assertEqual(code, 0)
        self.assertIn("no difference", told)

    def test_ten_altered_rows_are_named(self):
        lines, altered = rows(), [2, 3, 5, 8, 13, 20, 21, 25, 30, 39]
        for number in altered:
            lines[number - 1][9] = str(int(lines[number - 1][9]) - 1000 * number)
        code, told, _ = tool("compare", ROWS, self.recording(lines))
        self.assertEqual(code, 1)
        self.assertIn("rows that differ (10): " + ", ".join(map(str, altered)) + "\n", told)
        self.assertIn("first difference: row 2 at", told)
        self.assertRegex(told, r"sbi +39 +10  39000 mm at row 39")

    def test_rows_as_the_recording_has_them(self):
        """Only what differs is put in; what no row can have isn't."""

        def change(number, values):
            values[1] = "CSM" if number == 3 else "SB" if number == 4 else values[1]
            values[4] = (
                "n/a"
                if number == 6
                else f"{float(values[4]) + 0.0031:.4f}"
                if number == 9
                else f"{float(values[4]) + 0.001:.3f}"
            )
            return values

        recording, mapping = self.own_form(change)
        altered = Path(self.room.name) / "altered"
        code, told, _ = tool("compare", ROWS, recording, "--mapping", mapping, "--altered", altered)
        due = rows()
        due[2][1], due[5][8], due[8][8] = "C", "-", str(int(due[8][8]) + 3)
        self.assertEqual(code, 1)
        self.assertIn("rows that differ (4): 3, 4, 6, 9\n", told)
        self.assertIn("\nnot compared: status, tco, sb, covered, sbi, warning, permitted, indication\n", told)
        self.assertEqual([line.split(",") for line in altered.read_text().splitlines()], due)

    def test_tolerances(self):
        lines = rows()
        lines[4][8] = str(int(lines[4][8]) + 7)
        lines[6][7] = str(int(lines[6][7]) + 1)
        self.assertEqual(tool("compare", ROWS, self.recording(lines), "--mm", "7", "--kmh", "1")[0], 0)
        self.assertEqual(tool("compare", ROWS, self.recording(lines), "--mm", "6", "--kmh", "1")[0], 1)
        self.assertEqual(tool("compare", ROWS, self.recording(lines), "--mm", "7")[0], 1)

    def test_a_command_that_comes_late(self):
        lines = rows()
        first = next(i for i, row in enumerate(lines) if row[5] == "1")
        apart = int(lines[first + 1][0]) - int(lines[first][0])
        lines[first][5] = "0"
        self.assertEqual(tool("compare", ROWS, self.recording(lines), "--ds", apart)[0], 0)
        self.assertEqual(tool("compare", ROWS, self.recording(lines), "--ds", apart - 1)[0], 1)

    def test_a_mapping(self):
        recording, mapping = self.own_form(lambda number, values: values)
        code, told, _ = tool("compare", ROWS, recording, "--mapping", mapping)
        self.assertEqual((code, "\ncovered " in told, "39 rows compared" in told), (0, False, True))
        recording, mapping = self.own_form(
            lambda number, values: values[:1] + ["CSM"] + values[2:] if number == 8 else values
        )
        self.assertIn(
            "row 8 at 12 s, line 9: state is T, in the recording C",
            tool("compare", ROWS, recording, "--mapping", mapping)[1],
        )

    def test_rows_without_a_line(self):
        code, told, _ = tool("compare", ROWS, self.recording(rows()[:10] + rows()[12:]))
        self.assertEqual(code, 0)
        self.assertIn("37 rows compared; 2 rows have no line of their time, 0 lines no row", told)

    def test_a_place_on_one_side_alone(self):
        lines = rows()
        lines[3][8] = "-"
        self.assertIn("1 with a place on one side alone", tool("compare", ROWS, self.recording(lines))[1])

    def test_what_can_t_be_compared(self):
        for text, mapping, fault in [
            ("a,b\n1,2\n", '[time]\ncolumn = "t"\n', "The recording has no column 't'"),
            ("t,b\n1,2\n", '[ebi]\ncolumn = "t"\n', "no table `time`"),
            ("t,b\n1,2\n", '[speed]\ncolumn = "b"\n', "no column of a row"),
            ("t,b\nx,2\n", '[time]\ncolumn = "t"\n', "is no number"),
            ("t,b\n900000,2\n", '[time]\ncolumn = "t"\n', "No row has the time"),
            ("t,b\n", '[time]\ncolumn = "t"\n', "nothing to compare"),
            ("t,b\n1,2\n", "[time\n", "The mapping can't be read"),
            ("t,b\n1,2\n", 'delimiter = ";;"\n[time]\ncolumn = "t"\n', "must have one character as `delimiter`"),
            ("t,b\n1,2\n", '[time]\ncolumn = "t"\norigin = "noon"\n', "a timestamp as `origin`"),
        ]:
            code, _, told = tool("compare", ROWS, self.file("r", text), "--mapping", self.file("m", mapping))
            self.assertEqual(code, 2, fault)
            self.assertIn(fault, told)
            self.assertEqual(told.count("\n"), 1)

    def test_a_tolerance_below_nothing(self):
        for word, told in (("--mm", "-1 mm"), ("--kmh", "-1 km/h")):
            code, _, err = tool("compare", ROWS, ROWS, word, "-1")
            self.assertEqual((code, err), (2, f"compare: Values may be {told} apart, and expected is 0 or more.\n"))
