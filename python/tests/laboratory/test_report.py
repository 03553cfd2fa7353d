"""A report is one page that asks for nothing from elsewhere, and holds the program's rows, why's causes and the
differences. What a browser makes of it is tried by scripts/house try report."""
import hashlib
import re
import shutil
import tempfile
import unittest
from html.parser import HTMLParser
from itertools import accumulate
from pathlib import Path
from unittest import mock

from sdm.laboratory.program import Fault
from sdm.laboratory.rows import COLUMNS
from sdm.reporting import page, words
from sdm.reporting.journey import READING, steps_of

from tests.folders import EXAMPLES
from tests.tool import program, tool
from tests.laboratory import kinds, planted

VOID = {"meta", "input", "br", "link", "img"}
LEADS = {"src", "srcset", "data", "action", "poster", "background", "cite", "longdesc", "manifest", "ping"}
SHOWN = ["approach", "interventions", "recording", "release-speed", "temporary-restriction", "limit-of-authority"]
MOST_BYTES = 2_000_000


class Page(HTMLParser):
    """The elements of a page, with what they lead to; an element that isn't closed fails."""

    def __init__(self, text):
        super().__init__()
        self.text, self.open, self.ids, self.leads, self.links, self.scripts = text, [], [], [], [], []
        self.policy = None
        self.feed(text)
        self.close()
        assert not self.open, self.open

    def handle_starttag(self, tag, attrs):
        named = dict(attrs)
        if tag not in VOID:
            self.open.append(tag)
        if "id" in named:
            self.ids.append(named["id"])
        if tag in ("link", "base", "iframe", "object", "embed", "img"):
            self.leads.append(tag)
        if named.get("http-equiv") == "Content-Security-Policy":
            self.policy = named["content"]
        self.leads += [name for name in named if name in LEADS]
        self.links += [named["href"]] if "href" in named else []

    def handle_endtag(self, tag):
        assert self.open and self.open[-1] == tag, (tag, self.open)
        self.open.pop()

    def handle_data(self, data):
        if self.open and self.open[-1] == "script":
            self.scripts.append(data)


def summed(steps):
    """The values of a list of steps."""
    values = accumulate(step or 0 for step in steps)
    return [None if step is None else value for step, value in zip(steps, values)]


def data_of(text):
    """The data of a page."""
    return page.unpacked(re.search(r'id="data">([^<]*)</script>', text)[1])


def columns_in(journey, part):
    """The columns of a page's journey, of its readings or its rows."""
    columns = {}
    for name, values in journey[part].items():
        columns[name] = values if isinstance(values, str) else summed(values)
        if name in journey["bases"]:
            bases = columns[journey["bases"][name]]
            columns[name] = [None if more is None else more + (base or 0) for more, base in zip(columns[name], bases)]
    return columns


def rows_in(journey):
    """The rows that a page's journey holds, as text."""
    columns = columns_in(journey, "row") | {"time": summed(journey["reading"]["time"])}
    lines = zip(*(columns[name] for name in COLUMNS))
    return "".join(",".join("-" if value is None else str(value) for value in line) + "\n" for line in lines)


class InAFolder(unittest.TestCase):
    def setUp(self):
        room = tempfile.TemporaryDirectory()
        self.addCleanup(room.cleanup)
        self.room = Path(room.name)

    def made(self, source, *words, code=0):
        """The text of the page for an input, or the error message."""
        out = self.room / "report.html"
        got, _, err = tool("report", source, out, *words)
        self.assertEqual(got, code, err)
        return err if code else out.read_text()

    def holds(self, told, *texts):
        """Fails by the first text that a page doesn't have; the page itself is too long to be shown."""
        for text in texts:
            self.assertTrue(text in told, f"not in the page: {text}")

    def of(self, name, *words):
        return self.made(EXAMPLES / name / "input", "--rows", EXAMPLES / name / "rows", *words)

    def compared(self, name, *words):
        files = EXAMPLES / name
        return self.of(name, "--recording", files / "recording.csv", "--mapping", files / "mapping.toml", *words)


class Journeys(InAFolder):
    def test_the_data_hold_the_rows_and_the_readings(self):
        for name in SHOWN:
            journey = data_of(self.of(name))["journey"]
            self.assertEqual(rows_in(journey), (EXAMPLES / name / "rows").read_text(), name)
            records = (EXAMPLES / name / "input").read_text().split("%%\n")[1].splitlines()
            due = [line.split(",")[1:] for line in records if line.startswith("read,")]
            got = zip(*(columns_in(journey, "reading")[column] for column in READING))
            self.assertEqual([list(map(str, each)) for each in got], due, name)

    def test_the_causes_are_those_of_why(self):
        journey = data_of(self.of("interventions"))["journey"]
        for number in (1, 12, 19, 29, 39):
            told = tool("why", EXAMPLES / "interventions/input", number, "--program", "/nowhere")[1]
            for part in ("causes", "force"):
                shown = journey[part]["texts"][summed(journey[part]["at"])[number - 1]]
                lines = [line.removeprefix("in force").strip() for line in told.splitlines()]
                self.assertLessEqual({line.strip() for line in shown.splitlines()}, set(lines), (number, part))

    def test_the_targets_of_the_limits(self):
        """At 45 s the EOA's SBI is earlier than the SvL's, as the example's page works out; the EBI is the SvL's."""
        journey = data_of(self.of("interventions"))["journey"]
        at = summed(journey["reading"]["time"]).index(450)
        ebi, sbi, *_ = journey["counting"]["texts"][summed(journey["counting"]["at"])[at]].split("\n")
        self.assertEqual((ebi, sbi), ("SvL", "EOA"))

    def test_the_curves_at_72_km_h(self):
        """200 m to the foot at 1000 m; W 40 m, P 80 m and I 260 m before the SBI, as the page of the example has it."""
        curves = data_of(self.of("approach"))["journey"]["curves"]
        due = {"ebi": 800, "sbi": 800, "warning": 760, "permitted": 720, "indication": 540}
        (shown,) = curves["sets"]
        for name, places, speeds in shown["lines"]:
            if name in due:
                self.assertEqual(summed(places)[summed(speeds).index(72_000)], 100 * due[name], name)
                due.pop(name)
        self.assertEqual(due, {})

    def test_what_is_in_force_and_the_track(self):
        journey = data_of(self.of("temporary-restriction"))["journey"]
        self.assertEqual([end[:2] for end in journey["ends"]], [["EOA", 2_000_000], ["SvL", 2_000_000]])
        self.assertEqual([each[0] for each in journey["restrictions"]], [80, 40])
        journey = data_of(self.of("release-speed"))["journey"]
        self.assertIn("start of R", [end[0] for end in journey["ends"]])
        in_release = [letter == "R" for letter in journey["row"]["state"]]
        self.assertEqual([speed is not None for speed in summed(journey["release"])], in_release)
        self.assertEqual({speed for speed in summed(journey["release"]) if speed}, {18})

    def test_numbers_of_the_journey(self):
        told = self.of("interventions")
        self.holds(
            told,
            "<th>readings</th><td>39</td>",
            "<th>time</th><td>0.0 s to 61.0 s</td>",
            "144.000 km/h (40.000 m/s): row 1",
            "<th>traction cut-off</th><td>20 rows; it comes once, first in row 10, at 14.0 s",
            "<th>emergency brake</th><td>19 rows; it comes once, first in row 19, at 23.0 s and 4,112.650 m</td>",
            "<th>covered</th><td>35 rows</td>",
            "<th>least way to the EBI</th><td>-61.352 m from the max safe front end: row 21",
            "<th>least way to the P</th><td>-359.752 m from the max safe front end: row 21",
        )
        self.holds(self.of("temporary-restriction"), "<th>service brake</th><td>never</td>")

    def test_rows_that_the_model_has_otherwise(self):
        rows = (EXAMPLES / "approach/rows").read_text().replace("5,T,X,1", "5,T,X,0")
        (self.room / "rows").write_text(rows)
        told = self.made(EXAMPLES / "approach/input", "--rows", self.room / "rows")
        self.holds(told, "Rows that the model has otherwise (1): 2")
        self.assertEqual(data_of(told)["journey"]["differs"], [1])
        self.assertEqual(rows_in(data_of(told)["journey"]), rows)
        self.assertFalse("Rows that the model has otherwise" in self.of("approach"))

    def test_the_program_is_run_and_named(self):
        named = program(self.room, f"cat {EXAMPLES / 'approach/rows'}")
        told = self.made(EXAMPLES / "approach/input", "--program", named)
        self.assertTrue(re.search(r"written by sdm, \d+ bytes, SHA-256 [0-9a-f]{64}<", told))
        digest = hashlib.sha256((EXAMPLES / "approach/input").read_bytes()).hexdigest()
        self.holds(told, f"approach/input, 695 bytes, SHA-256 {digest}<")
        self.assertEqual(rows_in(data_of(told)["journey"]), (EXAMPLES / "approach/rows").read_text())

    def test_without_a_program_the_rows_are_the_model_s(self):
        with mock.patch.object(words, "built", side_effect=Fault("There is no program")):
            told = self.made(EXAMPLES / "approach/input")
            self.holds(told, "worked out by the model, which only tests compare with the program")
            self.assertEqual(rows_in(data_of(told)["journey"]), (EXAMPLES / "approach/rows").read_text())
            told = self.made(EXAMPLES / "refused-record/input")
            fault = (EXAMPLES / "refused-record/err").read_text().strip()
            self.holds(told, f"The run ended with code 7: {fault}")
            self.assertIn("There is no program", self.made(EXAMPLES / "approach/input", "--program", "sdm", code=1))

    def test_a_journey_that_is_refused(self):
        line = "sdm: bad event 3: time back"
        named = program(self.room, f"cat {EXAMPLES / 'refused-record/rows'}; echo {line} >&2; exit 7")
        told = self.made(EXAMPLES / "refused-record/input", "--program", named)
        self.holds(told, f"The run ended with code 7: {line}", "Why the input was refused")
        named = program(self.room, "echo sdm: bad data: missing track.gradient[2].grad >&2; exit 5")
        told = self.made(EXAMPLES / "refused-data/input", "--program", named)
        self.holds(told, "line 37, column 1: track.gradient[2]: found no key")
        self.assertFalse("<script" in told)
        Page(told)


class Tolerances(InAFolder):
    def test_one_below_0_is_refused_by_its_name(self):
        for name, least in (("mm", "-1"), ("kmh", "-1/2"), ("ds", "-1")):
            with self.subTest(name):
                code, out, err = tool(
                    "report", EXAMPLES / "approach/input", self.room / "page.html", f"--{name}={least}"
                )
                self.assertEqual((code, out), (2, ""))
                self.assertIn(f"{name} is {least}, expected a number from 0 on", err)


class Pages(InAFolder):
    def test_a_page_stands_by_itself(self):
        text = self.compared("recording", "--mm", "1000")
        self.assertLess(len(text.encode()), MOST_BYTES)
        made = Page(text)
        self.assertEqual((made.leads, made.links), ([], ["#facts"]))
        self.assertEqual(made.policy, "default-src 'none'; script-src 'unsafe-inline'; style-src 'unsafe-inline'")
        library, licence = page.library()
        self.assertEqual(text.count(library), 1)
        rest = text.replace(library, "").replace(page.escape(licence), "")
        self.assertEqual(re.findall(r"https?:|//\w+\.|url\((?!#)|@import", rest), [])
        self.assertEqual(len(made.ids), len(set(made.ids)))

    def test_the_scripts_find_what_they_ask_for(self):
        for text, there in ((self.of("approach"), False), (self.compared("interventions"), True)):
            own = Page(text).scripts[-1]
            ids = set(Page(text).ids)
            asked = set(re.findall(r'\bby\("([\w-]+)"\)', own)) | set(re.findall(r'select\("#([\w-]+)', own))
            self.assertLessEqual(asked - (set() if there else {"runs"}), ids)
            buttons = set(re.findall(r"<button type=\"button\" id=\"([\w-]+)\"", text))
            does = own.split("const does = {")[1].split("};")[0]
            self.assertLessEqual(buttons, set(re.findall(r'([\w-]+)"?: \(\) =>', does)))
            self.assertEqual("difference-after" in buttons, there)

    def test_the_same_bytes_again(self):
        self.assertEqual(self.compared("interventions"), self.compared("interventions"))

    def test_texts_are_texts(self):
        text = self.of("approach", "--title", "<b>a & b</b></title><script>")
        self.assertEqual(text.count("&lt;b&gt;a &amp; b&lt;/b&gt;&lt;/title&gt;&lt;script&gt;"), 2)
        Page(text)

    def test_what_can_t_be_made(self):
        source, rows = EXAMPLES / "approach/input", EXAMPLES / "interventions/rows"
        self.assertIn("39 rows, 4 readings", self.made(source, "--rows", rows, code=1))
        self.assertIn("can't be read", self.made(self.room / "nowhere", "--rows", rows, code=1))
        self.assertIn("There is no program at /nowhere", self.made(source, "--program", "/nowhere", code=1))
        own = ("--rows", EXAMPLES / "approach/rows")
        self.assertIn("No row has the time", self.made(source, *own, "--recording", self.later(), code=1))
        with mock.patch.object(page, "D3", Path("/nowhere")):
            self.assertIn("scripts/setup installs it", self.made(source, *own, code=1))
        for given in ([source, "out.txt"], [source, "out.html", "--mapping", "m"]):
            self.assertEqual(tool("report", *given)[0], 2)

    def later(self):
        """A recording of other times than those of approach."""
        path = self.room / "later.csv"
        path.write_text("900,T,W,1,0,0,1,160,800000,800000,760000,720000,540000\n")
        return path


class Comparisons(InAFolder):
    def test_each_altered_value_is_a_difference(self):
        """The ten lines that the page of docs/LABORATORY.md lists, with by how much."""
        text = self.compared("interventions", "--ds", "5")
        columns = {each["name"]: each for each in data_of(text)["comparison"]["columns"]}
        beyond = {
            name: [
                (row + 1, by, got)
                for row, by, got, is_beyond in zip(
                    summed(each["row"]), each["by"], each["got"], each["beyond"], strict=True
                )
                if is_beyond == "1"
            ]
            for name, each in columns.items()
        }
        self.assertEqual(beyond["ebi"], [(9, -3000, None), (13, 5000, None)])
        self.assertEqual(beyond["sbi"], [(17, -3000, None), (32, -3000, None)])
        self.assertEqual(beyond["indication"], [(21, 5000, None), (31, -3000, None)])
        self.assertEqual(beyond["tco"], [(5, None, "1")])
        self.assertEqual(beyond["status"], [(8, None, "X")])
        self.assertEqual(beyond["eb"], [(29, None, "0"), (37, None, "0")])
        same = {name for name, found in beyond.items() if not found}
        self.assertEqual(same, {"time", "state", "sb", "ceiling", "warning", "permitted"})
        self.assertNotIn("covered", columns)
        self.holds(text, "10 rows differ by more than the tolerances, first row 5 at 8 s, line 6: tco is 0")

    def test_the_runs_of_differences(self):
        """Ten values are altered, each in a row of its own, as the page of docs/LABORATORY.md lists them."""
        runs = data_of(self.compared("interventions", "--ds", "5"))["comparison"]["runs"]
        self.assertEqual(
            [(each["column"], each["first"] + 1, each["last"] + 1, each["row"] + 1) for each in runs],
            [
                (column, row, row, row)
                for column, row in zip(
                    ("tco", "status", "ebi", "ebi", "sbi", "indication", "eb", "indication", "sbi", "eb"),
                    (5, 8, 9, 13, 17, 21, 29, 31, 32, 37),
                )
            ],
        )
        self.assertEqual(runs[3]["text"], "row 13: ebi 5 mm late")
        self.assertIn("decided by SvL, max safe front end; foot speed 0", runs[3]["facts"])

    def test_the_table_of_statistics(self):
        """Of 39 rows two EBIs are off, by -3 and by 5 mm: the mean is 2/39 mm."""
        lines = re.findall(r"<tr><td>(\w+)</td>(.*?)</tr>", self.compared("interventions", "--ds", "5"))
        cells = {name: re.findall(r"<td>(.*?)</td>", rest) for name, rest in lines}
        self.assertEqual(cells["ebi"], ["39", "2", "2", "row 9", "-3 mm", "0.051… mm", "5 mm", "row 13"])
        self.assertEqual(cells["sbi"], ["39", "2", "2", "row 17", "-3 mm", "-0.154… mm", "0 mm", "row 17"])
        self.assertEqual(cells["eb"], ["39", "2", "2", "row 29", "", "", "", ""])
        self.assertEqual(cells["covered"][0], "not compared")

    def test_rows_without_a_line_and_places_on_one_side(self):
        rows = (EXAMPLES / "interventions/rows").read_text().splitlines()
        rows[3] = ",".join([*rows[3].split(",")[:8], "-", *rows[3].split(",")[9:]])
        (self.room / "less.csv").write_text("\n".join(rows[:10] + rows[12:]) + "\n")
        text = self.of("interventions", "--recording", self.room / "less.csv")
        compared = data_of(text)["comparison"]
        lines = summed(compared["line"])
        self.assertEqual([n for n, line in enumerate(lines, 1) if line is None], [11, 12])
        self.assertEqual((lines[9], lines[12]), (10, 11))
        ebi = next(each for each in compared["columns"] if each["name"] == "ebi")
        self.assertEqual((ebi["row"], ebi["by"], ebi["got"], ebi["beyond"]), ([3], [None], ["-"], "1"))
        self.holds(text, "37 rows compared; 2 rows have no line of their time, 0 lines no row")

    def test_what_explains_the_differences(self):
        """A recording by the greatest gradient under the train: the page says so, and so of each run."""
        kind = next(each for each in kinds.OTHERS if each.name == "greatest gradient")
        _, plant = planted.shown_by([kind], 100)
        files = {name: self.room / name for name in ("input", "rows", "recording.csv")}
        for name, data in zip(files, (plant.source, plant.rows.encode(), plant.recording)):
            files[name].write_bytes(data)
        named = ["--rows", files["rows"], "--recording", files["recording.csv"]]
        text = self.made(files["input"], *named, "--diagnose")
        self.holds(
            text, '<pre id="diagnosis">', "1. (a) the greatest gradient under the train counts, not the least one"
        )
        runs = data_of(text)["comparison"]["runs"]
        self.assertTrue(all("explained by: (a) the greatest gradient" in run["explained"] for run in runs))
        text = self.made(files["input"], *named)
        self.assertFalse("What explains the differences" in text)
        self.assertEqual({run["explained"] for run in data_of(text)["comparison"]["runs"]}, {""})
        self.assertEqual(tool("report", files["input"], "out.html", "--diagnose")[0], 2)

    def test_nothing_differs(self):
        text = self.of("interventions", "--recording", EXAMPLES / "interventions/rows")
        self.holds(text, "Nothing differs by more than the tolerances", "None beyond the tolerances")


class Campaigns(InAFolder):
    def setUp(self):
        super().setUp()
        self.folder = self.room / "journeys"
        for name in ("approach", "guidance", "display"):
            shutil.copytree(EXAMPLES / name, self.folder / name)
            shutil.copy(EXAMPLES / name / "rows", self.folder / name / "got.rows")
            (self.folder / name / "got.code").write_text("0\n")
        shutil.copytree(EXAMPLES / "realistic", self.folder / "group" / "left")
        got = self.folder / "guidance" / "got.rows"
        got.write_text(got.read_text().replace(",C,", ",T,", 1))

    def overview(self, *words):
        out = self.folder / "index.html"
        code, _, err = tool("report", self.folder, out, *words)
        self.assertEqual((code, err), (0, ""))
        return out.read_text()

    def test_the_overview_leads_to_pages_that_lead_back(self):
        made = Page(self.overview())
        pages = ["guidance/report.html", "approach/report.html"]
        self.assertEqual([link for link in made.links if "#" not in link], pages)
        self.assertEqual({link.split("#row-")[0] for link in made.links}, set(pages))
        self.assertEqual((made.leads, made.scripts), ([], []))
        for link in pages:
            text = (self.folder / link).read_text()
            self.assertEqual(Page(text).links, ["../index.html", "#facts"])
            self.assertEqual(rows_in(data_of(text)["journey"]), (self.folder / link).with_name("got.rows").read_text())
        self.holds((self.folder / "guidance/report.html").read_text(), "row 1 differs")

    def test_the_overview_says_how_each_ended(self):
        lines = re.findall(r"<tr.*?</tr>", self.overview().split('id="journeys"')[1])
        cells = [[re.sub("<[^>]*>", "", cell) for cell in re.findall("<td>(.*?)</td>", line)] for line in lines[1:]]
        self.assertEqual([each[0] for each in cells], ["guidance", "approach", "display", "group/left"])
        self.assertEqual(cells[0][1:4], ["run", "0 done", "differs"])
        self.assertEqual(cells[1][1:], ["run", "0 done", "as due", "4", "2", "1", "2"])
        self.assertEqual(cells[3][2], "not run")

    def test_the_overview_has_the_statistics_of_the_campaign(self):
        """Those of approach, counted by hand from its rows and its readings; the other journeys aren't counted, since
        nothing is of `run`, or they weren't run."""
        shutil.rmtree(self.folder / "guidance")
        (self.folder / "approach" / "got.time").write_text("1500\n")
        told = self.overview()
        self.holds(
            told,
            "<p>4 readings in 1 journeys of run</p>",
            "<td>traction cut-off</td><td>2</td><td>1</td><td>1</td>",
            "<td>service brake</td><td>1</td><td>1</td><td>1</td>",
            "<td>emergency brake</td><td>2</td><td>1</td><td>1</td>",
            "<td>X intervention</td><td>2</td><td></td><td>1</td>",
            "<td>covered</td><td>3</td>",
            'to EBI: -10 mm, <a href="approach/report.html#row-2">approach, row 2</a>',
            'to P: -80,010 mm, <a href="approach/report.html#row-2">approach, row 2</a>',
            'slow: 1.5 ms, 4 readings, <a href="approach/report.html">approach</a>',
        )

    def test_at_most_so_many_pages(self):
        """One that differs; and those with the least ways, which are linked to their rows (approach, row 2)."""
        links = Page(self.overview("--most", "1")).links
        self.assertEqual(
            set(links), {"guidance/report.html", "approach/report.html", "approach/report.html#row-2"} & set(links)
        )
        self.assertIn("approach/report.html#row-2", links)
        (self.folder / "approach" / "got.code").unlink()
        (self.folder / "approach" / "report.html").unlink()
        links = Page(self.overview("--most", "1")).links
        self.assertEqual({link.split("#row-")[0] for link in links}, {"guidance/report.html"})
        self.assertFalse((self.folder / "approach/report.html").exists())


class Steps(unittest.TestCase):
    def test_steps_pass_over_what_is_none(self):
        self.assertEqual(steps_of([5, None, 7, 7, -1]), [5, None, 2, 0, -8])
        self.assertEqual(summed([5, None, 2, 0, -8]), [5, None, 7, 7, -1])
