"""tools/plot draws what the pages of examples/ work out, and refuses in a sentence what can't be drawn."""
import base64
import hashlib
import os
import re
import subprocess
import tempfile
import unittest
import xml.dom.minidom
from pathlib import Path
from unittest import mock

import sdm
from sdm_evidence.makers.line import a_run
from sdm_evidence.model.words import collect

from tests.folders import EXAMPLES, TOP
from tests.laboratory.test_tables import as_row, rows_by_hand
from tests.tool import tool

APPROACH = EXAMPLES / "approach" / "input", EXAMPLES / "approach" / "rows"
POINT = re.compile(r"([\d.]+),([\d.]+)")


def pairs(found):
    return [(float(x), float(y)) for x, y in found]


class Svg:
    """A picture that gnuplot drew, by its text."""

    def __init__(self, path):
        self.text = path.read_text()

    def marks(self, symbol):
        """Where the marks of a symbol lie, in pixels; 6 is the train."""
        return pairs(re.findall(rf"href='#gpPt{symbol}' transform='translate\(([\d.]+),([\d.]+)\)", self.text))

    def paths(self, colour="[^)]*"):
        """The points of each path of a colour, "213, 94, 0"."""
        colour = colour.replace(" ", " *")
        return [
            pairs(POINT.findall(path))
            for path in re.findall(rf"stroke='rgb\( *{colour}\)'[^>]*? d='([^']*)'", self.text)
        ]


class Scale:
    """Where a place and a speed lie in a picture, by two points of it: each its pixels, and its place and speed."""

    def __init__(self, one, other):
        self.x, self.y = ((one[0][k], other[0][k], one[1][k], other[1][k]) for k in (0, 1))

    def has(self, points, place, speed):
        """Whether one of some points lies there."""
        at = [
            low + (high - low) * (value - least) / (most - least)
            for value, (low, high, least, most) in ((place, self.x), (speed, self.y))
        ]
        return any(abs(x - at[0]) < 0.1 and abs(y - at[1]) < 0.1 for x, y in points)


class Plot(unittest.TestCase):
    def setUp(self):
        room = tempfile.TemporaryDirectory()
        self.addCleanup(room.cleanup)
        self.room = Path(room.name)

    def drawn(self, source, rows, *words, told="", data=b"", name="picture.svg"):
        """The picture of an input and its rows; what is told of it must match."""
        out = self.room / name
        code, _, err = tool("plot", source, rows, out, *words, data=data)
        self.assertEqual(code, 0, err)
        self.assertRegex(err, told or "^$")
        return Svg(out) if out.suffix == ".svg" else out.read_bytes()

    def example(self, name, *words):
        """The picture of a folder of examples/, with a mark of the train for each of its rows, and one in the key."""
        rows = EXAMPLES / name / "rows"
        svg = self.drawn(EXAMPLES / name / "input", rows, *words)
        if words[:1] != ("drive",):
            self.assert_marks(svg, len(rows.read_text().splitlines()))
        return svg

    def assert_marks(self, svg, readings):
        self.assertEqual(len(svg.marks(6)), readings + 1)

    def assert_texts(self, svg, texts):
        for text in texts.split("; "):
            with self.subTest(text):
                self.assertIn(f"<text>{text}</text>", svg.text)

    def altered(self, name, pattern, new):
        """The rows of an example with another text in one of them."""
        text, count = re.subn(pattern, new, (EXAMPLES / name / "rows").read_text(), flags=re.M)
        self.assertEqual(count, 1)
        path = self.room / "altered"
        path.write_text(text)
        return path


class OfRun(Plot):
    def test_approach(self):
        out = self.room / "approach.svg"
        subprocess.run([TOP / "tools" / "plot", *APPROACH, out], check=True)
        svg = Svg(out)
        xml.dom.minidom.parseString(svg.text)
        self.assert_marks(svg, 4)
        self.assert_texts(svg, "EBD; SBD; EBI; SBI; warning; permitted; indication; EOA, SvL; target of P; place (m)")
        self.assert_texts(svg, "+tco +sb +eb -tco -sb; speed (km/h); time (s); front end (m); state; status")
        self.assert_texts(svg, "traction cut-off; service brake; emergency brake; covered")
        self.assertEqual(svg.text, self.example("approach").text, "the same bytes come again")

    def test_its_marks_lie_in_their_places(self):
        """Where the journey's README has them; and the curve of the EBI: 36 km/h at 950 m, where no reading lies."""
        svg = self.example("approach")
        train, ebi = svg.marks(6), svg.marks(3)
        scale = Scale((train[0], (799.99, 72)), (train[3], (900, 0)))
        due = [(train, 1, 800.01, 72), (train, 2, 810, 54), (ebi, 0, 800, 72), (ebi, 2, 887.5, 54), (ebi, 3, 1000, 0)]
        for marks, k, place, speed in due:
            self.assertTrue(scale.has([marks[k]], place, speed), (k, place, speed))
        self.assertTrue(scale.has(max(svg.paths("213, 94, 0"), key=len), 950, 36))

    def test_a_png(self):
        self.assertEqual(self.drawn(*APPROACH, name="approach.png")[:4], b"\x89PNG")

    def test_altered_rows_are_named(self):
        altered = self.altered("approach", "^10,T,X,0,0,1", "10,T,X,0,0,0")
        svg = self.drawn(APPROACH[0], altered, told="the model has otherwise: 3;")
        self.assert_texts(svg, "not the model's")

    def test_parts(self):
        self.example("refused-record")
        words = ("--times", "0.5", "1", "--places", "790", "830", "--speeds", "50", "80")
        self.assert_marks(self.drawn("-", APPROACH[1], *words, data=APPROACH[0].read_bytes()), 2)


class OfLong(Plot):
    """Journeys over a line, with rows by the model."""

    @classmethod
    def setUpClass(cls):
        cls.source = a_run(5, 24, 4)
        cls.rows = collect(["run"], cls.source)[0]

    def files(self, rows=None):
        paths = self.room / "input", self.room / "rows"
        paths[0].write_bytes(self.source)
        paths[1].write_text(self.rows if rows is None else rows)
        return paths

    def test_an_overview_by_kilometres_is_small(self):
        svg = self.drawn(*self.files())
        self.assert_texts(svg, "place (km); 10; 20; SvL")
        self.assertLess(len(svg.text), 400_000)
        readings = self.rows.count("\n")
        self.assertTrue(100 < len(svg.marks(6)) < readings / 3, (len(svg.marks(6)), readings))

    def test_the_key_of_an_overview_has_no_marks_of_limits(self):
        """EBI and P are curves alone, and the ceilings have no margins."""
        svg = self.drawn(*self.files())
        self.assert_texts(svg, "EBI; permitted; ceiling")
        self.assertEqual([len(svg.marks(mark)) for mark in (3, 11, 7, 9, 1)], [0] * 5)
        self.assertNotIn("margins", svg.text)

    def test_a_window_of_places_has_its_readings_alone(self):
        svg = self.drawn(*self.files(), "--places", "3000", "3400")
        self.assert_texts(svg, "place (m)")
        read = [list(map(int, line.split(b",")[1:])) for line in self.source.splitlines() if line.startswith(b"read")]
        inside = [each for each in read if each[2] <= 3_400_000 and each[3] >= 3_000_000]
        self.assertIn(f"{len(inside)} readings", svg.text)

    def test_a_row_outside_a_window_isn_t_worked_out(self):
        lines = self.rows.splitlines(True)
        lines[0] = lines[0].replace(",N,", ",X,")
        files = self.files("".join(lines))
        self.drawn(*files, "--times", "100", "120")
        self.drawn(*files, "--times", "0", "20", told="the model has otherwise: 1;")


class OfSheets(Plot):
    def test_a_title_has_the_version_and_digests(self):
        svg = self.drawn(*APPROACH)
        sums = [hashlib.sha256(path.read_bytes()).hexdigest()[:12] for path in APPROACH]
        title = f"sdm run: 4 readings; sdm {sdm.__version__}; SHA-256 of input {sums[0]}, rows {sums[1]}"
        self.assertIn(f"<text>{title}</text>", svg.text)
        self.assert_texts(self.drawn(*APPROACH, "--title", 'my "own" \\ title'), 'my "own" \\ title')
        self.assertNotIn(sdm.__version__, self.drawn(*APPROACH, "--title", "").text)

    def test_a_size(self):
        svg = self.drawn(*APPROACH, "--size", "1500", "800")
        self.assertRegex(svg.text, r'<svg[^>]*\s+width="1500" height="800"')
        png = self.drawn(*APPROACH, "--size", "1500", "800", name="approach.png")
        self.assertEqual((int.from_bytes(png[16:20], "big"), int.from_bytes(png[20:24], "big")), (1500, 800))

    def test_which_column_is_altered_and_how_much(self):
        altered = self.altered("approach", "^10,T,X,0,0,1,1,160,887500", "10,T,X,0,0,0,1,160,887507")
        svg = self.drawn(APPROACH[0], altered, told="the model has otherwise: 3;")
        told = "row 3 at 1 s: eb 0, the model's 1; EBI 887507, the model's 887500 (7 mm more)"
        self.assertIn(f"<text>{told}</text>", svg.text)
        self.assert_texts(svg, "eb EBI")


class OfOthers(Plot):
    def test_flat(self):
        self.assert_texts(self.example("flat", "flat", "100", "100000"), "END")

    def test_display(self):
        svg = self.example("display", "display")
        self.assert_texts(
            svg, "train; EBI speed; SBI speed; permitted speed; release speed; own speed; shown target; permitted"
        )
        self.assert_texts(svg, "above permitted; above SBI; above EBI; fall; EOA")
        altered = self.altered("display", "^780,66", "780,67")
        self.drawn(EXAMPLES / "display" / "input", altered, "display", told="the model has otherwise: 31;")

    def test_the_speeds_that_are_shown_lie_in_their_places(self):
        """Where its README has them, as corners of steps."""
        svg = self.example("display", "display")
        train = svg.marks(6)
        scale = Scale((train[0], (500, 144)), (train[44], (2989.6, 0)))
        due = {
            "213, 94, 0": [(500, 171), (1626.5, 127), (2060, 87), (2979.2, 20)],
            "0, 0, 0": [(1626.5, 121), (2720, 78), (2979.2, 85)],
            "0, 114, 178": [(1060, 155), (2676, 72), (2968.8, 14)],
        }
        for colour, corners in due.items():
            points = [point for path in svg.paths(colour) for point in path]
            for corner in corners:
                self.assertTrue(scale.has(points, *corner), (colour, corner))

    def test_drive(self):
        svg = self.example("drive", "drive", "22", "196")
        self.assert_marks(svg, 196)
        self.assert_texts(svg, "true train; EBD; EBI; EOA; SvL; emergency brake")
        altered = self.altered("drive", "^stops 2", "stops 3")
        told = "lines of drive that the model has otherwise;"
        self.drawn(EXAMPLES / "drive" / "input", altered, "drive", "22", "196", told=told)

    def test_the_true_train_lies_in_its_places(self):
        """Coasting, at its onset, at both stops; the scale is that of its first point and of where it is at 74 s."""
        points = max(self.example("drive", "drive", "22", "196").paths("204, 121, 167"), key=len)
        self.assertEqual(len(points), 197)
        scale = Scale((points[0], (0, 0)), (points[147], (267.4975, 6.4)))
        due = [
            (0.04625, 0.185),
            (264.335, 6.25),
            (277.0975, 6.4),
            (297.5775, 0),
            (304.745, 1.26),
            (306.635, 1.26),
            (307.4288, 0),
        ]
        for place, speed in due:
            self.assertTrue(scale.has(points, place, speed), (place, speed))

    def test_claims(self):
        self.assert_texts(
            self.example("certificate-checked", "check"),
            "claim; until the brake works; marks, and the way; SvL; holds; yes",
        )
        altered = self.altered("certificate-checked", "^200,yes", "200,no")
        told = "answers that the model has otherwise: 2;"
        self.drawn(EXAMPLES / "certificate-checked" / "input", altered, "check", told=told)

    def test_marks_and_ways_lie_in_their_places(self):
        """Where the README of examples/certificate has them, in m and m/s, and where the brake works."""
        svg = self.example("certificate-checked", "check")
        claims = svg.marks(6)
        scale = Scale((claims[0], (545, 24.5)), (claims[1], (975, 4.5)))
        for mark in [(610.95598, 25), (700, 500**0.5), (950, 10), (1000, 0), (989.875, 4.5)]:
            self.assertTrue(scale.has(svg.marks(4), *mark), mark)
        lines = [point for path in svg.paths() for point in path]
        for end in [(594.5, 25), (984, 4.5)]:
            self.assertTrue(scale.has(lines, *end), end)


class Refused(Plot):
    def test_what_can_t_be_drawn_is_told(self):
        source, rows = APPROACH
        short, other = self.room / "short", self.room / "other"
        short.write_text("".join(rows.read_text().splitlines(True)[:-1]))
        other.write_text(rows.read_text().replace("\n10,", "\n11,"))
        too_soon = self.room / "too-soon"
        drive = EXAMPLES / "drive"
        too_soon.write_text((drive / "input").read_text().replace("emergency_time = 20", "emergency_time = 4"))
        no = self.room / "no.svg"
        answers = EXAMPLES / "certificate-checked" / "rows"
        for status, told, *words in [
            (1, "3 rows, 4 readings", source, short, no),
            (1, "row 3 has the time 11", source, other, no),
            (1, "is no line of sdm display", source, rows, no, "display"),
            (1, "is no row of sdm run", source, EXAMPLES / "display" / "rows", no),
            (1, "No such file", self.room / "none", rows, no),
            (2, "'trial' has no readings", source, rows, no, "trial", "7", "3"),
            (
                2,
                "'display 1', and must be 'run', 'display', 'check', 'flat A END' or",
                source,
                rows,
                no,
                "display",
                "1",
            ),
            (2, "NUMBER is 0 to 65,535", drive / "input", drive / "rows", no, "drive", "65536", "1"),
            (1, "no readings: not drivable: emergency time", too_soon, drive / "rows", no, "drive", "22", "196"),
            (1, "2 rows, 3 readings", EXAMPLES / "certificate-forged" / "input", answers, no, "check"),
            (1, "no claims: bad event 1: line", source, answers, no, "check"),
            (2, "must end with .svg or .png", source, rows, self.room / "no.pdf"),
            (2, "the first must be below the second", source, rows, no, "--times", "5", "1"),
            (2, "--size is 480 to 8000 by 400 to 8000 pixels", source, rows, no, "--size", "100", "660"),
            (2, "required: OUT", source, rows),
        ]:
            with self.subTest(told):
                code, _, err = tool("plot", *words)
                self.assertEqual(code, status)
                self.assertIn(told, err.splitlines()[-1])
                self.assertFalse(no.exists())

    def test_that_gnuplot_is_missing_is_told(self):
        with mock.patch.dict(os.environ, PATH=str(self.room)):
            code, _, err = tool("plot", *APPROACH, self.room / "no.svg")
        self.assertEqual((code, err), (1, "plot: gnuplot is not installed; scripts/setup installs it.\n"))


class FromPython(unittest.TestCase):
    def test_rows_of_any_form_and_files_by_their_endings(self):
        data, _, records = (EXAMPLES / "interventions" / "input").read_text().partition("%%\n")
        rows, due = [as_row(fields) for fields in rows_by_hand()], (
            EXAMPLES / "interventions" / "picture.svg"
        ).read_bytes()
        for held in (rows, sdm.array(rows), sdm.frame(rows)):
            picture = sdm.plot(data, records, held)
            self.assertEqual(picture.svg, due)
        with tempfile.TemporaryDirectory() as room:
            for ending, start in ((".svg", b"<?xml"), (".png", b"\x89PNG\r\n\x1a\n")):
                picture.save(Path(room) / f"picture{ending}")
                self.assertTrue((Path(room) / f"picture{ending}").read_bytes().startswith(start))
            with self.assertRaisesRegex(sdm.FormError, "ends with '.pdf', expected .svg or .png"):
                picture.save(Path(room) / "picture.pdf")
        self.assertIn(base64.b64encode(due).decode(), picture._repr_html_())
