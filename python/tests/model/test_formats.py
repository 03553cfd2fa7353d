"""Numbers, records, the data part and its refusals (FORMATS.md), and all examples to the byte."""
import unittest

from sdm.laboratory.cases import difference
from sdm.laboratory.program import Result
from sdm_evidence.model.records import read_int, records
from sdm_evidence.model.words import collect

from tests.folders import EXAMPLES

APPROACH = (EXAMPLES / "approach" / "input").read_text()


class Examples(unittest.TestCase):
    def test_all_to_the_byte(self):
        for folder in sorted(path for path in EXAMPLES.iterdir() if path.is_dir()):
            words = (folder / "args").read_text().split("\n")[:-1]
            if words == ["live"]:  # the model has no such command
                continue
            read = lambda name, absent: (folder / name).read_text() if (folder / name).exists() else absent
            due = read("rows", ""), read("err", ""), int(read("code", "0"))
            with self.subTest(folder.name):
                made = Result(*collect(words, (folder / "input").read_bytes()))
                self.assertEqual(difference(("stored", "model"), Result(*due), made, words), [])

    def test_trial_of_the_page(self):
        self.assertEqual(
            collect(["trial", "7", "3"])[0].split(), "rows 3 covered 3 emergency 0 service 0 ebi 14668789".split()
        )

    def test_flat_of_the_page(self):
        self.assertEqual(collect(["flat", "100", "100000"], b"0,799990,20000"), ("0,800000,1,0\n", "", 0))
        self.assertEqual(collect(["flat", "100", "100000"], b"0,1,0\n\n")[1:], ("sdm: bad event 2: line\n", 7))
        self.assertEqual(collect(["flat", "100", "100000"], b""), ("", "", 0))
        self.assertEqual(collect(["flat", "100", "100000"], b"0,1,0\r\n")[2], 7)


class Text(unittest.TestCase):
    def test_numbers(self):
        self.assertEqual(
            [read_int(text) for text in (b"5", b"-0", b"007", b"9" * 18, b"-12")], [5, 0, 7, 10**18 - 1, -12]
        )
        self.assertEqual(
            [read_int(text) for text in (b"", b"-", b"+1", b" 1", b"1.0", b"9" * 19, b"1_0", b"1\n")], [None] * 8
        )

    def test_records(self):
        found = lambda data: list(records(data))
        self.assertEqual(found(b"a,b\n\r\n\nc\rd\r\n"), [[b"a", b"b"], [b"c"], [b"d"]])
        self.assertEqual(found(b'"a,\n""b"c,\n'), [[b'a,\n"bc', b""]])
        self.assertEqual(found(b'x"y,"open\n1'), [[b'x"y', b"open\n1"]])
        self.assertEqual(found(b'""\n'), [[b""]])
        self.assertEqual(found(b'"""\n'), [[b'"\n']])
        self.assertEqual(found(b"\xef\xbb\xbfread\n\xef\xbb\xbf"), [[b"read"], [b"\xef\xbb\xbf"]])
        self.assertEqual(found(b""), [])

    def fault(self, old, new, count=1):
        rows, fault, code = collect(["run"], APPROACH.replace(old, new, count).encode())
        return fault.removeprefix("sdm: ").strip()

    def test_data(self):
        for old, new, due in [
            ("version = 1", "version = 3", "bad data: value version"),
            ("version = 1", "version = 0", "bad data: value version"),
            ("version = 1", "version = 1.0", "bad data: wrong kind version"),
            ("version = 1", "version = 1\nmore = 1", "bad data: unknown key in root"),
            ("version = 1", "version = 9223372036854775808", "bad data: not TOML"),
            ("version = 1", "version = 1\nversion = 1", "bad data: not TOML"),
            ("%%", "%% ", "bad data: no %% line"),
            ("length = 10000", "length = true", "bad data: wrong kind train.length"),
            ("length = 10000\n", "", "bad data: missing train.length"),
            ("service_time = 0", "service_time = 3", "bad data: value train.service_time"),
            ("kdry = 1000", "kdry = 1001", "bad data: value train.band[1].kdry"),
            ("kdry = 1000", "kdry = 1000\nupper = 5", "bad data: band order train.band[1]"),
            ('kind = "end"', 'kind = "limit"', "bad data: unknown key in authority"),
            ('kind = "end"', 'kind = "none"', "bad data: value authority.kind"),
            ("eoa = 100000", "eoa = 10000001", "bad data: value authority.eoa"),
            ("start = 0", "start = 1", "bad data: gap track.speed"),
            ("start = 0", "start = 200000", "bad data: value track.speed[1].start"),
            ("[[track.speed]]\nstart = 0\nspeed = 160", "speed = []", "bad data: count track.speed"),
            ("[[track.speed]]\nstart = 0\nspeed = 160", "speed = [1]", "bad data: wrong kind track.speed"),
            ("eoa = 100000", "eoa = 100001", "refused: supervised location before end"),
            ("svl = 100000", "svl = 200001", "refused: beyond track"),
            ("read,5,", "read,-1,", "bad event 2: field 2: out of range"),
            ("read,10,", "read,4,", "bad event 3: time back"),
            ("read,5,800010,800010,800010", "read,5,800010,800011,800010", "bad event 2: field 4: out of range"),
            ("read,5", "Read,5", "bad event 2: unknown kind"),
            ("read,5", "revoke,5\nread,5", "bad event 2: identity unknown"),
            ("read,5", "restrict,5,7,7,1,0\nread,5", "bad event 2: restriction value"),
            ("read,5", "limit,100000,0\nread,5", "bad event 2: field 3: out of range"),
        ]:
            with self.subTest(new=new):
                self.assertEqual(self.fault(old, new), due)

    def test_other_forms_of_toml(self):
        self.assertEqual(
            self.fault("[[track.speed]]\nstart = 0\nspeed = 160", "speed = [\n { start = 0, speed = 160 }, # here\n]"),
            "",
        )
        self.assertEqual(self.fault('kind = "end"', 'kind = "\\u0065nd"'), "")
        self.assertEqual(self.fault("version = 1", "version = 07:32:00"), "bad data: wrong kind version")

    def test_bounds_of_toml(self):
        for more, due in (
            ("9223372036854775807", "unknown key in root"),
            ("9223372036854775808", "not TOML"),
            ("[" * 80 + "]" * 80, "unknown key in root"),
            ("[" * 81 + "]" * 81, "not TOML"),
            ("[" * 5000, "not TOML"),
        ):
            self.assertEqual(self.fault("version = 1", f"more = {more}\nversion = 1"), f"bad data: {due}")

    def test_words(self):
        for words in ([], ["run", "x"], ["--help"], ["flat", "4", "1"], ["flat", "+5", "1"], ["trial", "0", "0"]):
            self.assertEqual(collect(words), ("", "sdm: bad words\n", 1))
