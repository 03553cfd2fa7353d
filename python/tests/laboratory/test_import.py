"""import makes the journey that is due of a recording, warns of what it leaves out, and names what is wrong where."""
import importlib.machinery
import importlib.util
import tempfile
import unittest
from pathlib import Path

import sdm
from sdm.laboratory.clock import Clock
from sdm_evidence.model.words import collect

from sdm.importing.faults import Findings
from sdm.importing.tables import table_of
from sdm.laboratory.recording import recording_of
from tests.folders import EXAMPLES
from tests.tool import tool

STORED = EXAMPLES / "recording"
DATA = (STORED / "data.toml").read_text() + "[track]\nspeed = [{start = 0, speed = 100}]\n"
AUTHORITY = '[authority]\nkind = "end"\neoa = 300000\nsvl = 300000\n'
READING = """
[import.reading]
est = {column = "x", scale = 1000}
doubt = {metres = 5}
speed = {column = "v", scale = 1000}
accel = {value = 0}
under = {value = 100}
"""
MAPPING = f"""
time = {{column = "t"}}
[import]
data = "data.toml"
{READING}"""
PACKETS = """
[import.packets]
file = "packets.csv"
time = {column = "t"}
reference = {column = "ref", scale = 100}
V_NVREL = 40
M_TRACKCOND = [6]
"""
RECORDING = "t,x,v,EOA,SvL\n0,100,20,3000,3050\n5,110,20,3000,3050\n10,120,20,2500,2500\n"


class Room(unittest.TestCase):
    def setUp(self):
        room = tempfile.TemporaryDirectory()
        self.addCleanup(room.cleanup)
        self.room = Path(room.name)

    def run_import(self, recording=RECORDING, mapping=MAPPING, data=DATA + AUTHORITY, **files):
        """The code, the journey and the messages of an import; `files` are more files, by their names without .csv."""
        (self.room / "recording.csv").write_text(recording)
        (self.room / "mapping.toml").write_text(mapping)
        (self.room / "data.toml").write_text(data)
        for name, text in files.items():
            (self.room / f"{name}.csv").write_text(text)
        return tool("import", self.room / "recording.csv", "--mapping", self.room / "mapping.toml")

    def records(self, *words, **files):
        code, journey, told = self.run_import(*words, **files)
        self.assertEqual(code, 0, told)
        return journey.split("%%\n")[1].splitlines()

    def packets(self, text, data=DATA, **more):
        """An import with packets, whose lines are of words VARIABLE=VALUE."""
        rows = [dict(word.split("=") for word in line.split()) for line in text.strip().splitlines()]
        columns = list(dict.fromkeys(name for row in rows for name in row))
        lines = [",".join(columns)] + [",".join(row.get(name, "") for name in columns) for row in rows]
        return self.run_import(mapping=MAPPING + PACKETS, data=data, packets="\n".join(lines) + "\n", **more)


class Stored(Room):
    """The recording of examples/recording, whose input and rows come from another hand than the import."""

    def test_the_journey_and_its_comparison(self):
        code, journey, told = tool("import", STORED / "recording.csv", "--mapping", STORED / "mapping.toml")
        self.assertEqual((code, journey), (0, (STORED / "input").read_text()))
        self.assertEqual(told.count("warning"), 5)
        for name in ("packet 41 is left out", "Q_LOCACC", "V_MAIN", "Q_DIR", "M_TRACKCOND 1"):
            self.assertIn(name, told)
        rows, fault, _ = collect(["run"], journey.encode())
        self.assertEqual((rows, fault), ((STORED / "rows").read_text(), ""))
        words = (STORED / "rows", STORED / "recording.csv", "--mapping", STORED / "mapping.toml", "--mm", "1000")
        code, told, _ = tool("compare", *words)
        self.assertEqual(code, 1)
        self.assertIn("200 rows compared; 0 rows have no line of their time, 0 lines no row\n", told)
        self.assertIn("rows that differ (4): 30, 61, 90, 150\n", told)

    def test_what_is_stored_is_what_its_script_makes(self):
        loader = importlib.machinery.SourceFileLoader("make_recording", str(STORED / "make"))
        made = importlib.util.module_from_spec(importlib.util.spec_from_loader("make_recording", loader))
        loader.exec_module(made)
        made.main(self.room)
        for name in ("recording.csv", "misread.csv", "packets.csv", "input", "rows", "args"):
            self.assertEqual((self.room / name).read_text(), (STORED / name).read_text(), name)

    def test_of_python(self):
        journey = sdm.import_recording(STORED / "recording.csv", STORED / "mapping.toml")
        self.assertEqual(journey.text(), (STORED / "input").read_text())
        self.assertEqual(len(journey.warnings), 5)
        with self.assertRaises(sdm.ImportFault) as raised:
            sdm.import_recording(STORED / "none.csv", STORED / "mapping.toml")
        self.assertEqual(str(raised.exception.faults[0].at), "none.csv")


class Readings(Room):
    def test_units_and_bounds(self):
        """110 m, 5 m to either side, 20 m/s, by hand."""
        self.assertEqual(self.records()[1], "read,5,110000,105000,115000,20000,0,100")

    def test_a_decimal_comma_and_an_origin(self):
        recording = "t;x;v\n0;1,2345;72,5\n"
        scaled = MAPPING.replace('"x", scale = 1000', '"x", scale = 1_000_000, shift = -1_000_000')
        scaled = scaled.replace('"v", scale = 1000', '"v", scale = 100')
        mapping = 'delimiter = ";"\ndecimal = ","\n' + scaled
        self.assertEqual(self.records(recording, mapping), ["read,0,234500,229500,239500,7250,0,100"])

    def test_percent_of_the_way_since_a_balise_group(self):
        """5 m and 2 percent of 0, 100 and 0 m."""
        mapping = MAPPING.replace("metres = 5", 'metres = 5, percent = 2, balise = {column = "g"}')
        records = self.records("t,x,v,g\n0,100,20,a\n50,200,20,a\n60,300,20,b\n", mapping)
        self.assertEqual(
            [record.split(",")[2:5] for record in records],
            [["100000", "95000", "105000"], ["200000", "193000", "207000"], ["300000", "295000", "305000"]],
        )

    def test_percent_of_a_column(self):
        mapping = MAPPING.replace("metres = 5", 'metres = 1, percent = 5, since = {column = "s", scale = 1000}')
        self.assertEqual(self.records("t,x,v,s\n0,100,20,60\n", mapping), ["read,0,100000,96000,104000,20000,0,100"])

    def test_columns_of_doubts_and_of_bounds(self):
        doubts = 'doubt_over = {column = "o", scale = 1000}\ndoubt_under = {column = "u", scale = 1000}'
        mapping = MAPPING.replace("doubt = {metres = 5}", doubts)
        self.assertEqual(self.records("t,x,v,o,u\n0,9,1,2,3\n", mapping), ["read,0,9000,7000,12000,1000,0,100"])
        bounds = doubts.replace("doubt_over", "min").replace("doubt_under", "max")
        mapping = MAPPING.replace("doubt = {metres = 5}", bounds)
        self.assertEqual(self.records("t,x,v,o,u\n0,9,1,7,12\n", mapping), ["read,0,9000,7000,12000,1000,0,100"])

    def test_standstill_is_said_by_its_column(self):
        """A train that moves at 0.2 mm/s has 1 mm/s; one that stands has 0, at whatever speed it reads."""
        mapping = MAPPING + 'standstill = {column = "s", values = {y = "1", n = "0"}}\n'
        records = self.records("t,x,v,s\n0,1,0.0002,n\n1,1,0.3,y\n", mapping)
        self.assertEqual([record.split(",")[5] for record in records], ["1", "0"])

    def test_a_front_end_from_its_group(self):
        mapping = MAPPING.replace('data = "data.toml"', 'data = "data.toml"\ngroups = {"7" = 20000}')
        mapping += 'group = {column = "g"}\n'
        self.assertEqual(self.records("t,x,v,g\n0,5,1,7\n", mapping), ["read,0,205000,200000,210000,1000,0,100"])
        self.assertIn(
            "recording.csv, line 2, column 'g': found the group 8, expected a group of",
            self.run_import("t,x,v,g\n0,5,1,8\n", mapping)[2],
        )


class Times(Room):
    def test_forms_of_timestamps(self):
        for text, ds in [
            ("2026-03-04T10:00:01Z", 10),
            ("2026-03-04 10:00:01,5Z", 15),
            ("2026-03-04T11:00:00.123456+01:00", "1.23456"),
            ("2026-03-05T00:00:00Z", 504_000),
            ("2026-03-04T09:59:59Z", -10),
            ("2026-03-04T08:30:00-0130", 0),
            ("04.03.2026 10:00Z", 0),
            ("04.03.2026 10:00:02,5Z", 25),
        ]:
            clock = Clock(origin="2026-03-04T10:00:00Z")
            self.assertEqual(clock.ds(text) * 100_000, round(float(ds) * 100_000), text)

    def test_the_first_line_counts_as_0(self):
        mapping = 'decimal = ","\ndelimiter = ";"\n' + MAPPING
        records = self.records("t;x;v\n2026-03-04 23:59:59,5;1;1\n2026-03-05 00:00:00,2;1;1\n", mapping)
        self.assertEqual([record.split(",")[1] for record in records], ["0", "7"])

    def test_faults_of_times(self):
        for second, expected in [
            ("5", "a timestamp such as"),
            ("2026-02-30T10:00:00", "a day and a time that exist"),
            ("2026-03-04T10:00:00Z", "a zone in all timestamps"),
            ("2026-03-04T09:00:00", "times never go back"),
            ("", "a timestamp such as"),
        ]:
            code, journey, told = self.run_import(f"t,x,v\n2026-03-04T10:00:00,1,1\n{second},1,1\n")
            self.assertEqual((code, journey), (2, ""), second)
            self.assertIn("recording.csv, line 3, column 't': found ", told)
            self.assertIn(expected, told)

    def test_a_recording_in_windows_1252(self):
        """Its column is found, and a warning names the first byte that is none of UTF-8."""
        text = "zeit;ort;länge\n0;1;2\n"
        (self.room / "recording.csv").write_bytes(text.encode("cp1252"))
        findings = Findings()
        table = table_of(self.room / "recording.csv", ";", ",", findings)
        self.assertEqual((table.columns, findings.faults), (("zeit", "ort", "länge"), []))
        self.assertIn("the byte 0xe4 is none of UTF-8, so the file is read as Windows-1252", str(findings.warnings[0]))
        lines = recording_of(text.encode("cp1252"), 'delimiter=";"\ntime.column="zeit"\nebi.column="länge"'.encode())
        self.assertEqual(lines, [(2, {"time": 0, "ebi": 2})])

    def test_compare_takes_timestamps(self):
        rows = self.room / "rows"
        rows.write_text("0,C,N,0,0,0,1,160,-,-,-,-,-\n7,C,N,0,0,0,1,160,-,-,-,-,-\n")
        mapping, recording = self.room / "m.toml", self.room / "r.csv"
        mapping.write_text('delimiter = ";"\n[time]\ncolumn = "t"\n[state]\ncolumn = "s"\n')
        recording.write_text("t;s\n2026-03-04 10:00:00,0;C\n2026-03-04 10:00:00,7;T\n")
        code, told, _ = tool("compare", rows, recording, "--mapping", mapping)
        self.assertEqual(code, 1)
        self.assertIn("row 2 at 0.7 s, line 3: state is C, in the recording T", told)
        mapping.write_text(mapping.read_text().replace('"t"', '"t"\norigin = "2026-03-04T09:59:59.3"'))
        self.assertIn("1 rows compared; 1 rows have no line", tool("compare", rows, recording, "--mapping", mapping)[1])
        recording.write_text("t;s\n2026-03-04 10:00:00,0;C\nlater;T\n")
        self.assertIn("Line 3 of the recording: 'later'", tool("compare", rows, recording, "--mapping", mapping)[2])


class Listed(Room):
    """Authorities, restrictions and profiles of columns and of files of their own."""

    def test_a_change_of_an_authority_in_the_recording(self):
        authority = '[import.authority]\neoa = {column = "EOA", scale = 100}\nsvl = {column = "SvL", scale = 100}\n'
        code, journey, told = self.run_import(mapping=MAPPING + authority, data=DATA)
        self.assertEqual(code, 0, told)
        self.assertIn('[authority]\nkind = "end"\neoa = 300000\nsvl = 305000\nrelease = 0\n', journey)
        kinds = [record.split(",")[0] for record in journey.split("%%\n")[1].splitlines()]
        self.assertEqual(kinds, ["read", "read", "end", "read"])
        self.assertIn("\nend,250000,250000,0\n", journey)

    def test_an_authority_goes_on_where_its_columns_are_empty(self):
        authority = '[import.authority]\neoa = {column = "EOA", scale = 100}\n'
        recording = "t,x,v,EOA\n0,1,1,300\n1,1,1,\n2,1,1,200\n3,1,1,\n"
        code, journey, told = self.run_import(recording, MAPPING + authority, DATA)
        self.assertEqual(code, 0, told)
        self.assertIn("eoa = 30000\nsvl = 30000\n", journey)
        self.assertEqual([line for line in journey.splitlines() if line.startswith("end")], ["end,20000,20000,0"])

    def test_a_chainage_that_falls(self):
        mapping = MAPPING.replace('"x", scale = 1000', '"x", scale = -1000, shift = 9_000')
        self.assertEqual(self.records("t,x,v\n0,8,1\n", mapping), ["read,0,1000,-4000,6000,1000,0,100"])

    def test_a_speed_just_below_a_whole_one_is_warned_of(self):
        """74.5645 mph is 120 km/h, written with four digits; 74.5 mph is 119.896 km/h, and 74 mph is 119.091."""
        of_speeds = '[import.speed]\nfile = "speeds.csv"\nstart = {column = "s"}\n'
        of_speeds += 'speed = {column = "mph", scale = 1.609344}\n'
        for mph, more, warned, kmh in (
            (
                "74.5645",
                "",
                "speeds.csv, line 2, column 'mph': 119.999… km/h for `import.speed.speed` count as 119",
                119,
            ),
            ("74.5645", ", shift = 0.1", "", 120),
            ("74.5", "", "", 119),
            ("74", "", "", 119),
        ):
            mapping = MAPPING + of_speeds.replace("1.609344", "1.609344" + more)
            data = DATA.split("[track]")[0] + AUTHORITY
            code, journey, told = self.run_import(mapping=mapping, data=data, speeds=f"s,mph\n0,{mph}\n")
            self.assertEqual(code, 0, told)
            self.assertIn(f"speed = {kmh}\n", journey)
            self.assertEqual("count as" in told, bool(warned), (mph, more))
            self.assertIn(warned, told)

    def test_files_of_their_own(self):
        mapping = (
            MAPPING
            + """
[import.authority]
file = "ma.csv"
time = {column = "t"}
loa = {column = "loa", scale = 100}
speed = {column = "v"}
[import.restriction]
file = "tsr.csv"
time = {column = "t"}
id = {column = "id"}
start = {column = "from", scale = 100}
end = {column = "to", scale = 100}
speed = {column = "v"}
[import.gradient]
file = "grad.csv"
start = {column = "from", scale = 100}
grad = {column = "permille", scale = 10}
[import.adhesion]
file = "wet.csv"
start = {column = "from", scale = 100}
end = {column = "to", scale = 100}
"""
        )
        code, journey, told = self.run_import(
            mapping=mapping,
            data=DATA,
            ma="t,loa,v\n0,2000,60\n6,1800,50\n",
            tsr="t,id,from,to,v\n1,4,500,600,40\n7,4,,,\n",
            grad="from,permille\n0,2.5\n700,-3\n",
            wet="from,to\n100,200\n150,300\n",
        )
        self.assertEqual(code, 0, told)
        data, records = journey.split("%%\n")
        self.assertIn('kind = "limit"\nloa = 200000\nspeed = 60\n', data)
        self.assertIn("start = 0\ngrad = 25\n\n[[track.gradient]]\nstart = 70000\ngrad = -30\n", data)
        self.assertIn("[[track.adhesion]]\nstart = 10000\nend = 30000\n", data)
        self.assertEqual(data.count("[[track.adhesion]]"), 1)
        self.assertIn("length = 200000\n", data)
        others = [record for record in records.splitlines() if not record.startswith("read")]
        self.assertEqual(others, ["restrict,4,50000,60000,40,0", "limit,180000,50", "revoke,4"])

    def test_a_gradient_under_the_train(self):
        """Each change begins at the front end of its line."""
        mapping = MAPPING + '[import.gradient]\ngrad = {column = "g", scale = 10}\n'
        data = DATA + "gradient = [{start = 0, grad = 10}]\n"
        _, journey, _ = self.run_import("t,x,v,g\n0,100,20,2\n5,110,20,2\n9,120,20,-1\n", mapping, data + AUTHORITY)
        for entry in ("start = 0\ngrad = 10\n", "start = 10000\ngrad = 20\n", "start = 12000\ngrad = -10\n"):
            self.assertIn("[[track.gradient]]\n" + entry, journey)

    def test_restrictions_of_columns(self):
        mapping = MAPPING + (
            '[[import.restriction]]\nstart = {column = "a", scale = 100}\nend = {column = "b", scale = 100}\n'
            'speed = {column = "c"}\n'
        )
        records = self.records(
            "t,x,v,a,b,c\n0,1,1,,,\n1,1,1,50,60,40\n2,1,1,50,60,40\n3,1,1,70,80,30\n4,1,1,,,\n", mapping
        )
        others = [record for record in records if not record.startswith("read")]
        due = ["restrict,256,5000,6000,40,0", "revoke,256", "restrict,257,7000,8000,30,0", "revoke,257"]
        self.assertEqual(others, due)


class Packets(Room):
    """Each packet by its line in docs/LABORATORY.md, worked by hand."""

    def others(self, text, **more):
        code, journey, told = self.packets(text, **more)
        self.assertEqual(code, 0, told)
        data, records = journey.split("%%\n")
        return data, [record for record in records.splitlines() if not record.startswith("read")], told

    def test_an_authority_with_an_overlap_a_danger_point_and_neither(self):
        """Sections of 1000 and 500 m from 100 m, in metres, then in units of 10 m and of 10 cm."""
        first = "t=0 ref=100 NID_PACKET=12 Q_SCALE=1 V_LOA=0 L_SECTION=1000"
        for end, due in [
            ("L_ENDSECTION=500 Q_DANGERPOINT=1 D_DP=50 V_RELEASEDP=8", "eoa = 160000\nsvl = 165000\nrelease = 40\n"),
            (
                "L_ENDSECTION=500 D_DP=50 V_RELEASEDP=8 D_OL=70 V_RELEASEOL=2",
                "eoa = 160000\nsvl = 167000\nrelease = 10\n",
            ),
            ("L_ENDSECTION=500 Q_OVERLAP=0 D_DP=50 V_RELEASEDP=127", "eoa = 160000\nsvl = 165000\nrelease = 40\n"),
            ("L_ENDSECTION=500", "eoa = 160000\nsvl = 160000\nrelease = 0\n"),
        ]:
            text = f"{first}\nt=0 ref=100 NID_PACKET=12 Q_SCALE=1 {end}"
            self.assertIn('kind = "end"\n' + due, self.others(text)[0])
        for scale, loa in [(0, "loa = 15000"), (2, "loa = 510000")]:
            text = f"t=0 ref=100 NID_PACKET=15 Q_SCALE={scale} V_LOA=12 L_ENDSECTION=500"
            self.assertIn(f'kind = "limit"\n{loa}\nspeed = 60\n', self.others(text)[0])

    def test_a_release_speed_that_is_calculated(self):
        text = "t=0 ref=0 NID_PACKET=12 Q_SCALE=1 V_LOA=0 L_ENDSECTION=500 D_DP=50 V_RELEASEDP=126 trip=510.001"
        self.assertIn("found 126, a calculated release speed, expected columns `trip` or", self.packets(text)[2])
        mapping = MAPPING + PACKETS + 'trip = {column = "trip", scale = 100}\n'
        packets = "\n".join(",".join(word.split("=")[i] for word in text.split()) for i in (0, 1)) + "\n"
        code, journey, told = self.run_import(mapping=mapping, data=DATA, packets=packets)
        self.assertEqual(code, 0, told)
        self.assertIn('kind = "end"\neoa = 50000\nsvl = 55000\nrelease = 0\n', journey)
        self.assertIn("%%\nendcalc,50000,55000,51001\nread,0,", journey)

    def test_a_release_speed_in_mph(self):
        """12.4274 mph is 20 km/h, written with four digits."""
        packets = "t,ref,NID_PACKET,Q_SCALE,V_LOA,L_ENDSECTION,D_DP,V_RELEASEDP,mph\n0,0,12,1,0,500,50,126,12.4274\n"
        for shift, kmh, warned in (("", 19, True), (", shift = 0.1", 20, False)):
            mapping = MAPPING + PACKETS + f'release = {{column = "mph", scale = 1.609344{shift}}}\n'
            code, journey, told = self.run_import(mapping=mapping, data=DATA, packets=packets)
            self.assertEqual(code, 0, told)
            self.assertIn(f"\nrelease = {kmh}\n", journey)
            self.assertEqual("packets.csv, line 2, column 'mph': 19.999… km/h for" in told, warned, told)

    def test_restrictions(self):
        """From 100 m; the same again is left out, another one of the identity revokes first, 255 takes a free one."""
        tsr = "NID_PACKET=65 Q_SCALE=1 ref=100"
        _, others, told = self.others(
            f"""
t=0 {tsr} NID_TSR=3 D_TSR=200 L_TSR=50 Q_FRONT=0 V_TSR=8
t=1 {tsr} NID_TSR=3 D_TSR=200 L_TSR=50 Q_FRONT=0 V_TSR=8
t=1 {tsr} NID_TSR=255 D_TSR=300 L_TSR=50 Q_FRONT=1 V_TSR=6
t=2 {tsr} NID_TSR=255 D_TSR=300 L_TSR=50 Q_FRONT=1 V_TSR=6
t=6 {tsr} NID_TSR=3 D_TSR=200 L_TSR=60 Q_FRONT=0 V_TSR=8
t=7 NID_PACKET=66 NID_TSR=3
t=8 NID_PACKET=66 NID_TSR=9
""",
            data=DATA + AUTHORITY,
        )
        due = [
            "restrict,3,30000,35000,40,1",
            "restrict,256,40000,45000,30,0",
            "revoke,3",
            "restrict,3,30000,36000,40,1",
        ]
        self.assertEqual(others, [*due, "revoke,3"])
        self.assertIn("no restriction 9 is held", told)

    def test_track_in_parts(self):
        """The second packet repeats what the first said of its part, and goes on."""
        grad, speed = "NID_PACKET=21 Q_SCALE=1", "NID_PACKET=27 Q_SCALE=1"
        data, _, _ = self.others(
            f"""
t=0 {grad} ref=0 D_GRADIENT=0 Q_GDIR=0 G_A=4
t=0 {grad} ref=0 D_GRADIENT=500 Q_GDIR=1 G_A=6
t=0 {grad} ref=0 D_GRADIENT=500 Q_GDIR=0 G_A=255
t=0 {grad} ref=300 D_GRADIENT=0 Q_GDIR=0 G_A=4
t=0 {grad} ref=300 D_GRADIENT=200 Q_GDIR=1 G_A=6
t=0 {grad} ref=300 D_GRADIENT=900 Q_GDIR=0 G_A=2
t=0 {grad} ref=300 D_GRADIENT=2000 Q_GDIR=0 G_A=255
t=0 {speed} ref=50 D_STATIC=0 V_STATIC=16 Q_FRONT=1
t=0 {speed} ref=50 D_STATIC=1000 V_STATIC=127 Q_FRONT=1
t=0 NID_PACKET=68 ref=0 Q_SCALE=1 D_TRACKCOND=10 L_TRACKCOND=20 M_TRACKCOND=6
t=0 NID_PACKET=68 ref=0 Q_SCALE=1 D_TRACKCOND=15 L_TRACKCOND=20 M_TRACKCOND=6
t=0 NID_PACKET=71 ref=0 Q_SCALE=1 D_ADHESION=10 L_ADHESION=20 M_ADHESION=0
t=0 NID_PACKET=71 ref=0 Q_SCALE=1 D_ADHESION=70 L_ADHESION=20 M_ADHESION=1
""",
            data=DATA + AUTHORITY,
        )
        gradients = "".join(
            f"[[track.gradient]]\nstart = {start}\ngrad = {grad}\n\n"
            for start, grad in [(0, -40), (50_000, 60), (140_000, -20)]
        )
        self.assertIn(gradients, data)
        speeds = (
            "start = 0\nspeed = 100\ndelayed = true\n\n[[track.speed]]\nstart = 5000\nspeed = 80\ndelayed = false\n"
        )
        self.assertIn(speeds, data)
        self.assertIn("[[track.no_special]]\nstart = 1000\nend = 4500\n\n[", data)
        self.assertIn("[[track.adhesion]]\nstart = 1000\nend = 3000\n\n[", data)

    def test_groups_of_packet_5(self):
        mapping = (
            MAPPING.replace('data = "data.toml"', 'data = "data.toml"\ngroups = {"1" = 0}') + 'group = {column = "g"}\n'
        )
        mapping += PACKETS.replace('reference = {column = "ref", scale = 100}', 'group = {column = "ref"}')
        code, journey, told = self.run_import(
            "t,x,v,g\n0,5,1,3\n",
            mapping,
            packets="t,NID_PACKET,ref,Q_SCALE,D_LINK,NID_BG\n0,5,1,1,400,2\n0,5,1,1,300,3\n",
        )
        self.assertEqual(code, 0, told)
        self.assertIn("%%\nread,0,705000,700000,710000,1000,0,100\n", journey)

    def test_what_has_no_meaning_is_refused_or_named(self):
        tsr = "t=0 ref=0 NID_PACKET=65 Q_SCALE=1 NID_TSR=3 D_TSR=200 L_TSR=50 Q_FRONT=0"
        grad = "t=0 ref=0 NID_PACKET=21 Q_SCALE=1 Q_GDIR=0"
        for text, fault in [
            ("t=0 ref=0 NID_PACKET=80", "line 2, column 'NID_PACKET': found 80, expected one of 5, 12, 15"),
            (f"{tsr} V_TSR=121", "line 2, column 'V_TSR': found '121', expected 1 to 120"),
            (f"{tsr} V_TSR=0", "column 'V_TSR': found '0', expected 1 to 120"),
            (tsr, "column 'V_TSR': found no value, expected 1 to 120"),
            (f"{grad} D_GRADIENT=0 G_A=81", "column 'G_A': found 81 per mille, expected at most 80"),
            (f"{grad} D_GRADIENT=x G_A=8", "column 'D_GRADIENT': found 'x', expected 0 to 32,767"),
            ("t=0 ref=0 NID_PACKET=27 Q_SCALE=3", "column 'Q_SCALE': found '3', expected 0 to 2"),
            ("t=0 ref=0 NID_PACKET=27 Q_SCALE=0 D_STATIC=0 V_STATIC=9 Q_FRONT=0 V_DIFF=4", "column 'V_DIFF'"),
            ("t=0 ref=0 NID_PACKET=68 Q_SCALE=0 Q_TRACKINIT=1", "column 'Q_TRACKINIT': found '1', expected 0 to 0"),
            ("t=0 ref=0 NID_PACKET=12 Q_SCALE=0 V_MAIN=0 V_LOA=0 L_ENDSECTION=9", "column 'V_MAIN': found '0'"),
        ]:
            code, _, told = self.packets(text, data=DATA + AUTHORITY)
            self.assertEqual(code, 2, text)
            self.assertIn("import: packets.csv, line 2", told)
            self.assertIn(fault, told)

    def test_another_gradient_for_a_known_part(self):
        grad = "ref=0 NID_PACKET=21 Q_SCALE=1 Q_GDIR=0 D_GRADIENT=0"
        code, _, told = self.packets(f"t=0 {grad} G_A=8\nt=1 {grad} G_A=9", data=DATA + AUTHORITY)
        due = "packets.csv, line 3: found gradient -90 at 0 cm, expected -80, as said before; cut the journey"
        self.assertEqual(code, 2)
        self.assertIn(due, told)


class Faults(Room):
    """What is wrong is named with its file, line and column, what was found and what is expected."""

    def test_several_at_once(self):
        code, journey, told = self.run_import("t,x,v\n0,1,1\n1,a,1\n2,1,-5\n3,1,\n2,1,1\n")
        self.assertEqual((code, journey), (2, ""))
        self.assertEqual(
            told.splitlines(),
            [
                "import: recording.csv, line 3, column 'x': found 'a', expected a number for `import.reading.est` (mm)",
                "import: recording.csv, line 4, column 'v': found -5,000 mm/s for `speed`, expected 0 to 138,888 mm/s",
                "import: recording.csv, line 5, column 'v': found no value, expected a number for "
                "`import.reading.speed` (mm/s)",
            ],
        )

    def test_mappings(self):
        for change, told_of in [
            (("[import.reading]", "[import.readings]"), "mapping.toml: found "),
            (('"x", scale', '"y", scale'), "recording.csv, line 1: found no column 'y' for `import.reading.est`"),
            (
                ("\ntime", '\ndelimiter = ";"\ntime'),
                "no column 't' for `time`, expected another `delimiter`, or 't,x,v",
            ),
            (("scale = 1000", "scal = 1000"), "key import.reading.est.scal: found the key, expected one of column"),
            (("scale = 1000", 'scale = "km"'), "key import.reading.est.scale: found 'km', expected a number"),
            (("accel = {value = 0}\n", ""), "key import.reading: found no key `accel`, expected it, in cm/s²"),
            (("doubt = {metres = 5}\n", ""), "key import.reading: found none of them, expected `min` and `max`"),
            (("metres = 5", "percent = 5"), "key import.reading.doubt: found percent, expected a table with `metres`"),
            (("metres = 5", "metres = -5"), "key import.reading.doubt.metres: found -5, expected a number from 0 on"),
            (('data = "data.toml"', 'data = "no.toml"'), "no.toml: found No such file or directory, expected a file"),
            (('data = "data.toml"\n', ""), "key import: found no key `data`"),
            (("[import.reading]", "[import.tsr]\n[import.reading]"), "key import.tsr: found the key, expected one of"),
            (("[import]", "[import"), "mapping.toml: found "),
            (("\ntime", '\ndelimiter = ";;"\ntime'), "key delimiter: found ';;', expected one character"),
            (("\ntime", "\ndecimal = 5\ntime"), "key decimal: found 5, expected"),
            (
                ('data = "data.toml"', 'data = "data.toml"\ngroups = {a = "b"}'),
                "key import.groups: found {'a': 'b'}, exp",
            ),
            (
                ('"x", scale', '"x", none = "x", scale'),
                "key import.reading.est.none: found 'x', expected a list of texts",
            ),
        ]:
            code, _, told = self.run_import(mapping=MAPPING.replace(*change, 1))
            self.assertEqual(code, 2, change)
            self.assertIn(told_of, told)

    def test_files(self):
        for recording, told_of in [
            ("", "recording.csv: found 0 columns and no line"),
            ("t,x,v\n", "recording.csv: found 3 columns and no line"),
            ("t,x,v\n0,1\n", "recording.csv, line 2: found 2 fields, expected 3, as the header has"),
            ("t,x,v,x\n0,1,1,1\n", "recording.csv, line 1, column 'x': found the column twice"),
        ]:
            self.assertIn(told_of, self.run_import(recording)[2])

    def test_data(self):
        for data, told_of in [
            (DATA, "data.toml: found no authority up to the first reading, expected [authority], or a packet 12"),
            (DATA.replace("version = 2", "version = 1") + AUTHORITY, "data.toml: found version 1, expected version 2"),
            (DATA.replace("length = 15000", "length = 0") + AUTHORITY, "found bad data: value train.length"),
            (DATA.replace("[track]\nspeed", "[track]\nspeeds") + AUTHORITY, "data.toml: found no speeds"),
            (DATA + AUTHORITY.replace("svl = 300000", "svl = 200000"), "refused: supervised location before end"),
        ]:
            code, _, told = self.run_import(data=data)
            self.assertEqual(code, 2, told_of)
            self.assertIn(told_of, told)

    def test_a_record_past_the_track(self):
        mapping = MAPPING + (
            '[import.restriction]\nstart = {column = "EOA", scale = 100}\nend = {column = "SvL", scale = 100}\n'
            "speed = {value = 50}\n"
        )
        data = DATA.replace("[track]\n", "[track]\nlength = 300000\n") + AUTHORITY
        code, _, told = self.run_import("t,x,v,EOA,SvL\n0,1,1,3000,3050\n", mapping, data)
        self.assertEqual(code, 2)
        self.assertIn(
            "recording.csv, line 2: found restrict,256,300000,305000,50,0, which is refused: restriction", told
        )


if __name__ == "__main__":
    unittest.main()
