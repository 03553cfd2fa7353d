"""explain tells each mistake of a table with its line and what is expected, and doubts slips of units and no more."""
import re
import tempfile
import unittest
from pathlib import Path

import sdm
from sdm.laboratory.cases import cases_under
from sdm.laboratory.mistakes import FAULT, edited, mistakes
from sdm_evidence.model.data import data_of, read_document
from sdm_evidence.model.drive import Drive
from sdm_evidence.model.words import collect

from tests.folders import EXAMPLES, TOP
from tests.tool import tool
from tests.laboratory import planted

TABLE = (Path(__file__).parent / "mistakes.txt").read_text()
WHOLE = (EXAMPLES / "every-key" / "input").read_text()
JOURNEY = (EXAMPLES / "interventions" / "input").read_text()
BREAK_PHYSICS = {"approach", "band-border", "every-key", "written-otherwise"}  # their readings are scenes of their own


def readings(change):
    """The journey with the numbers of each reading changed: time, est, min, max, speed, accel, under."""
    data, _, records = JOURNEY.partition("%%\n")
    lines = []
    for number, line in enumerate(records.splitlines()):
        kind, *fields = line.split(",")
        fields = change(number, *map(int, fields)) if kind == "read" else fields
        lines.append(",".join([kind, *map(str, fields)]))
    return data + "%%\n" + "\n".join(lines) + "\n"


def scaled(place=1.0, speed=1.0, time=1.0, only=None):
    """The journey in other units, or one reading of it."""

    def change(number, ds, est, low, high, mm_s, accel, under):
        if only is not None and number != only:
            return ds, est, low, high, mm_s, accel, under
        ends = [round(place * end) for end in (est, low, high)]
        return round(time * ds), *ends, round(speed * mm_s), accel, under

    return readings(change)


class Mistakes(unittest.TestCase):
    def test_each_is_told_with_its_line_and_what_is_expected(self):
        cases = list(mistakes(TABLE, WHOLE))
        self.assertGreaterEqual(len(cases), 40)
        for case in cases:
            with self.subTest(case.edits):
                told = sdm.explanation(case.text.encode())
                self.assertEqual(FAULT + told.fault, case.fault)
                self.assertEqual(collect(["run"], case.text.encode())[1], case.fault + "\n")
                self.assertEqual(len(told.findings), len(case.findings), "\n".join(map(str, told.findings)))
                for finding, due in zip(told.findings, case.findings):
                    self.is_due(finding, due)

    def is_due(self, finding, due):
        place, found, expected, hint = (part.strip() for part in due.split("|"))
        place, where = place.split(" ", 1)
        told = ",".join("-" if each is None else str(each) for each in (finding.line, finding.column))
        self.assertEqual((told, finding.where), (place, where))
        self.assertIn(found, finding.found)
        self.assertIn(expected, finding.expected)
        self.assertIn(hint, finding.hint)
        self.assertEqual(hint == "", finding.hint == "")
        self.assertTrue(finding.is_refusal)


class Faults(unittest.TestCase):
    def test_of_the_vectors_is_the_first_what_the_program_tells(self):
        cases = [case for case in cases_under(TOP / "vectors") if case.words == ["run"]]
        self.assertGreater(len(cases), 100, "`vectors/make` makes them")
        for case in cases:
            with self.subTest(case.name):
                due, told = case.due.err, sdm.explanation(case.data)
                self.assertEqual(FAULT + told.fault + "\n" if told.fault else "", due)
                self.assertEqual(any(each.is_refusal for each in told.findings), bool(due))

    def test_a_space_after_each_comma_is_one_finding(self):
        """Of 39 readings of seven numbers: 273 fields. The first lines are those of the first records."""
        data, _, records = JOURNEY.partition("%%\n")
        first = data.count("\n") + 2
        told = sdm.explanation((data + "%%\n" + records.replace(",", ", ")).encode())
        self.assertEqual(told.fault, "bad event 1: field 2: not a number")
        (finding,) = told.findings
        self.assertEqual((finding.count, finding.lines), (273, tuple(range(first, first + 8))))
        self.assertEqual((finding.line, finding.column, finding.hint), (first, 2, "a space is part of its field"))
        self.assertIn(f"; 273 times, first on the lines {first}, {first + 1}, ", str(finding))

    def test_a_few_that_are_alike_are_told_one_by_one(self):
        lines = JOURNEY.splitlines(keepends=True)
        begin = lines.index("%%\n") + 1
        for i in range(8):
            lines[begin + i] = lines[begin + i].replace(",0,500", ",0,20000")
        self.assertEqual([each.count for each in sdm.explain("".join(lines))], [1] * 8)
        lines[begin + 8] = lines[begin + 8].replace(",0,500", ",0,20000")
        (finding,) = sdm.explain("".join(lines))
        self.assertEqual((finding.count, finding.where), (9, "record 1, read under"))

    def test_a_byte_order_mark_is_named(self):
        data, _, records = JOURNEY.partition("%%\n")
        (finding,) = sdm.explain(data + "\ufeff%%\n" + records)
        self.assertEqual((finding.where, finding.found), ("dividing line", '"<byte order mark>%%"'))
        (finding,) = sdm.explain(data + "%%\n" + records.replace("read,", "\ufeffread,", 2).replace("\ufeff", "", 1))
        self.assertEqual(finding.found, '"<byte order mark>read"')
        self.assertIn("skipped at the start of the records alone", finding.hint)

    def test_an_expected_deceleration_has_its_article(self):
        weak = JOURNEY.replace("grad = -5", "grad = -78")
        self.assertTrue(any("an expected deceleration of" in str(each) for each in sdm.explain(weak)))


class Doubts(unittest.TestCase):
    def hints(self, text):
        told = sdm.explanation(text.encode())
        self.assertEqual(told.fault, "")
        self.assertFalse(any(each.is_refusal for each in told.findings))
        return [(each.line, each.hint) for each in told.findings]

    def has(self, hints, part, line=None):
        self.assertTrue(any(part in hint and line in (None, at) for at, hint in hints), hints)

    def test_a_journey_in_another_unit(self):
        first = JOURNEY[: JOURNEY.index("%%\n")].count("\n") + 2
        self.has(self.hints(scaled(place=0.1)), "front ends look like cm", first)
        self.has(self.hints(scaled(place=0.001)), "front ends look like m,", first)
        self.has(self.hints(scaled(speed=0.0036)), "speeds look like km/h", first)
        self.has(self.hints(scaled(speed=0.001)), "speeds look like m/s", first)
        self.has(self.hints(scaled(time=0.1)), "times look like s", first)
        self.has(self.hints(scaled(time=100)), "times look like ms", first)

    def test_speeds_by_the_factor_between_km_h_and_m_s(self):
        self.has(self.hints(scaled(place=0.5, speed=1.8)), "speeds are 3.6 times too fast")
        self.has(self.hints(scaled(speed=1 / 3.6)), "speeds are 3.6 times too slow")

    def test_a_chainage_that_falls(self):
        falling = readings(
            lambda number, ds, est, low, high, *rest: (ds, *(5_500_000 - end for end in (est, high, low)), *rest)
        )
        self.has(self.hints(falling), "front ends fall as the train runs")

    def test_steps_whose_ways_the_odometer_hides(self):
        """Readings each 0.5 s, up to 0.4 m off and with safe front ends up to 36 m apart."""
        data, _, records = planted.journey(0).decode().partition("%%\n")
        self.assertEqual(self.hints(data + "%%\n" + records), [])
        for change, hint in (
            (lambda ends, speed: (ends, round(3.6 * speed)), "speeds are 3.6 times too fast"),
            (lambda ends, speed: ([9_000_000 - ends[i] for i in (0, 2, 1)], speed), "front ends fall"),
        ):
            lines = []
            for line in records.splitlines():
                kind, *fields = line.split(",")
                if kind == "read":
                    ends, speed = change(list(map(int, fields[1:4])), int(fields[4]))
                    fields[1:5] = map(str, [*ends, speed])
                lines.append(",".join([kind, *fields]) + "\n")
            hints = self.hints(data + "%%\n" + "".join(lines))
            self.assertEqual(len(hints), 1, hints)
            self.has(hints, hint)

    def test_numbers_that_hardly_any_train_has(self):
        for old, new, line, hint in (
            ("length = 20000", "length = 200", 4, "as m it would be 20,000 cm"),
            ("emergency_time = 30", "emergency_time = 3", 7, "as s it would be 30 ds"),
            ("service_time = 40", "service_time = 5", 8, "as s it would be 50 ds"),
            ("version = 1", "version = 2", None, "as per mille the first would be -50"),
            ("grad = -5", "grad = -41", None, "as tenths the first would be -4.1 ‰"),
        ):
            with self.subTest(new):
                text = JOURNEY.replace(old, new, 1)
                self.assertNotEqual(text, JOURNEY)
                at = text[: text.index(new)].count("\n") + 1
                (finding,) = [each for each in sdm.explain(text) if not each.is_refusal and "record" not in each.where]
                self.assertIn(hint, finding.hint)
                if line is not None:
                    self.assertEqual(finding.line, at)

    def test_one_reading_in_another_unit(self):
        line = JOURNEY[: JOURNEY.index("%%\n")].count("\n") + 2 + 7
        self.has(self.hints(scaled(place=0.1, only=7)), "est looks like cm", line)
        self.has(self.hints(scaled(speed=0.0036, only=7)), "speed looks like km/h", line)

    def test_a_train_that_never_moves(self):
        stuck = readings(lambda number, ds, est, low, high, *rest: (ds, 3200000, 3195000, 3205000, *rest))
        self.has(self.hints(stuck), "the front end never moves")

    def test_a_reading_kilometres_past_the_authority(self):
        past = readings(lambda number, ds, *rest: (ds, *(each + 3_000_000 for each in rest[:3]), *rest[3:]))
        self.has(self.hints(past), "an authority is missing")

    def test_a_long_gap(self):
        late = readings(lambda number, ds, *rest: (ds + 3_000 * (number > 20), *rest))
        self.has(self.hints(late), "readings are missing")

    def test_an_end_in_mm(self):
        head, _, records = JOURNEY.partition("%%\n")
        head = re.sub(r"^length = 600000.*", "length = 10000000", head, flags=re.M)
        head = re.sub(r"^(eoa|svl) = (\d+)", r"\1 = \g<2>0", head, flags=re.M)
        told = self.hints(head + "%%\n" + records)
        self.has(told, "as mm it would be 500000 cm")

    def test_a_realistic_journey_has_none(self):
        warned = set()
        for path in sorted(EXAMPLES.glob("*/input")):
            told = sdm.explanation(path.read_bytes())
            if told.fault == "" and told.findings:
                warned.add(path.parent.name)
        self.assertEqual(warned, BREAK_PHYSICS)

    def test_a_generated_train_has_none(self):
        head = (EXAMPLES / "drive" / "input").read_bytes()
        for number in (22, 7, 1_000, 65_535):
            drive = Drive(data_of(read_document(head)), number)
            taken = [drive.step().cycle.situation.reading for _ in range(150)]
            records = "".join(f"read,{','.join(map(str, reading))}\n" for reading in taken)
            self.assertEqual(self.hints(head.decode() + "\n%%\n" + records), [])


class Tool(unittest.TestCase):
    def setUp(self):
        self.room = tempfile.TemporaryDirectory()
        self.addCleanup(self.room.cleanup)

    def file(self, text):
        path = Path(self.room.name) / "input"
        path.write_text(text)
        return path

    def test_its_page(self):
        """The blocks of tools/README.md that begin with a call of it, over inputs that the page says how to make."""
        page = (TOP / "tools" / "README.md").read_text()
        section = page[page.index("## Why an input is refused") :].split("\n## ")[0]
        texts = {
            "mistakes": edited(
                WHOLE, ["4 = lenght = 10000", "10 = service_time = 32", "76 = read,10,520000,519000,521000"]
            ),
            "in-cm": scaled(place=0.1),
        }
        blocks = re.findall(r"    tools/explain (\S+)\n\n((?:    .*\n)+)", section)
        self.assertEqual([name for name, _ in blocks], list(texts))
        for name, block in blocks:
            told = tool("explain", self.file(texts[name]))[1]
            self.assertEqual(told, re.sub(r"^    ", "", block, flags=re.M))

    def test_its_status(self):
        self.assertEqual(tool("explain", EXAMPLES / "realistic" / "input")[0], 0)
        self.assertEqual(tool("explain", self.file(scaled(place=0.1)))[0], 0)
        self.assertEqual(tool("explain", self.file("%%\n"))[0], 1)
        self.assertEqual(tool("explain")[0], 2)
        self.assertEqual(tool("explain", Path(self.room.name) / "none")[0], 2)

    def test_any_bytes(self):
        for data in (b"", b"%%", b"\xff\n%%\n", b"a = '''\n%%\n", b'%%\n\xff\xfe,"\n', b"[" * 2_000 + b"\n%%\n"):
            told = sdm.explanation(data)
            self.assertTrue(told.fault and told.findings, data)
            self.assertEqual(sdm.explain(data), told.findings)
            self.assertEqual(collect(["run"], data)[1], f"sdm: {told.fault}\n")
