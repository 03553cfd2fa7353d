"""Data of version 2 and `upgrade` (FORMATS.md, PROFILE.md): values worked by hand over the train of `approach`.

It brakes with 1 m/s² towards an end at 1000 m. At 20 m/s it needs 400/2 = 200 m; W, P and I lie 40, 80 and 260 m
before the SBI.
"""
import tomllib
import unittest
from fractions import Fraction as F

from sdm_evidence.model.data import data_of, read_document, table_of
from sdm_evidence.model.decelerations import brakes_of, under_the_train
from sdm_evidence.model.layout import laid_out
from sdm_evidence.model.words import collect

from tests.folders import EXAMPLES

PLAIN = (EXAMPLES / "approach" / "input").read_text().partition("%%")[0]
AT_20 = ["read,0,500000,500000,500000,20000,0,0"]


def data_part(version=2, band="", track="", **values):
    """The data part of `approach` with another version, more lines in its band and its track, and other values."""
    text = PLAIN.replace("version = 1", f"version = {version}").replace("kn_down = 0\n", f"kn_down = 0\n{band}\n")
    text = text.replace("[authority]", f"{track}\n[authority]")
    for key, value in values.items():
        text = text.replace(f"\n{key} = ", f"\n{key} = {value} # ", 1)
    return text


def area(name, start, end):
    return f"[[track.{name}]]\nstart = {start}\nend = {end}\n"


def gradient(*pairs):
    return "".join(f"[[track.gradient]]\nstart = {start}\ngrad = {grad}\n" for start, grad in pairs)


def journey(data, records=AT_20):
    return collect(["run"], (data + "%%\n" + "".join(record + "\n" for record in records)).encode())


def fault(data):
    return journey(data)[1].removeprefix("sdm: bad data: ").strip()


class SpecialBrakes(unittest.TestCase):
    """With 0.8 m/s² over the last 100 m: v² is 160 at 900 m, so 20 m/s are met at 900 − 240/2 = 780 m."""

    def test_an_area_before_the_end(self):
        data = data_part(band="emergency_reduced = 80", track=area("no_special", 90_000, 100_000))
        self.assertEqual(
            journey(data, ["read,0,690000,690000,690000,20000,0,0"]),
            ("0,T,I,0,0,0,1,160,780000,780000,740000,700000,520000\n", "", 0),
        )

    def test_without_a_reduced_deceleration_or_an_area_nothing_changes(self):
        for data in (
            data_part(track=area("no_special", 90_000, 100_000)),
            data_part(band="emergency_reduced = 80"),
            data_part(band="emergency_reduced = 100", track=area("no_special", 90_000, 100_000)),
            data_part(band="emergency_reduced = 60", track=area("adhesion", 90_000, 100_000), adhesion_max=100),
        ):
            self.assertEqual(journey(data)[0], "0,C,N,0,0,0,1,160,800000,800000,760000,720000,540000\n")

    def test_an_area_counts_until_the_rear_end_has_left(self):
        """A train of 100 m. An area from 800 m to 900 m counts for front ends up to 1000 m: v² is 320 at 800 m, so
        20 m/s lie at 800 − 80/2 m. One that ends a centimetre earlier leaves 1 m/s² from 999.99 m on, and v² is
        0.02 + 1.6 · 199.99 = 320.004 at 800 m."""
        for end, ebi in ((90_000, "760000"), (89_999, "760002")):
            data = data_part(band="emergency_reduced = 80", track=area("no_special", 80_000, end))
            self.assertEqual(journey(data)[0].split(",")[8], ebi)

    def test_the_lower_of_it_and_reduced_adhesion(self):
        both = area("no_special", 90_000, 100_000) + area("adhesion", 90_000, 100_000)
        # with 0.7 m/s² 900 − (400 − 140)/2, with 0.6 m/s² 900 − (400 − 120)/2
        for reduced, ebi in ((80, 770_000), (60, 760_000)):
            data = data_part(band=f"emergency_reduced = {reduced}", track=both)
            self.assertEqual(journey(data)[0].split(",")[8], str(ebi))

    def test_the_factors_count_for_it(self):
        """Kdry 0.5 of 1.6 m/s² is 0.8, in the whole track; of 1.2 m/s² it is 0.6 in the area. So the EBI lies at
        900 − (400 − 120)/1.6 = 725 m."""
        special = area("no_special", 90_000, 100_000)
        data = data_part(band="emergency_reduced = 120", track=special, emergency=160, kdry=500)
        self.assertEqual(journey(data)[0].split(",")[8], "725000")

    def test_the_service_brake_is_as_it_was(self):
        """The SvL 1 km on: the EBI lies 400/1.2 m before it, and the SBI is that of the EOA by the SBD, 800 m."""
        data = data_part(band="emergency_reduced = 60", track=area("no_special", 0, 200_000), svl=200_000)
        self.assertEqual(journey(data)[0].split(",")[8:10], ["1666666", "800000"])

    def test_bands_of_which_one_gives_it(self):
        """Up to 36 km/h (10 m/s) 0.8 m/s² in the area, above it 1 m/s²: 10 m/s are met at 937.5 m, and 20 m/s 150 m
        before that."""
        low = "emergency_reduced = 80\nupper = 36\n" + PLAIN[PLAIN.index("[[train.band]]") : PLAIN.index("[national]")]
        data = data_part(band=low, track=area("no_special", 0, 200_000))
        self.assertEqual(journey(data)[0].split(",")[8], "787500")

    def test_before_cell_0_counts_what_counts_in_it(self):
        """The end at 50 m. From cell 0 on: 0.8 m/s² before it, so 20 m/s lie at 50 − 250 m; from cell 1 on: 1 m/s²
        before it, v² 0.8 · 2 · 49.99 = 79.984 at 0.01 m, and 400 at 0.01 − 160.008 m."""
        for start, ebi in ((0, -200_000), (1, -159_998)):
            special = area("no_special", start, 5_000)
            data = data_part(band="emergency_reduced = 80", track=special, eoa=5_000, svl=5_000)
            self.assertEqual(journey(data, ["read,0,-900000,-900000,-900000,20000,0,0"])[0].split(",")[8], str(ebi))


class Tenths(unittest.TestCase):
    """With a mass of 9 percent a tenth of a per mille is 9.81/10,900 = 0.0009 m/s²."""

    def test_a_fall_of_9_5_per_mille(self):
        data = data_part(track=gradient((0, -95)), rotating_mass=9)
        self.assertEqual(journey(data)[0], "0,C,N,0,0,0,1,160,781301,781301,741301,701301,521301\n")
        brake = brakes_of(data_of(read_document(data.encode())))["safe"]
        self.assertEqual(brake.slopes, ((199_361_000_000,),))
        self.assertEqual(F(brake.slopes[0][0], 2 * 10**9 * brake.q), F(9145, 10_000))

    def test_the_lowest_tenth_under_the_train(self):
        data = data_of(read_document(data_part(track=gradient((0, 3), (50_000, 2), (50_001, 3)), length=100).encode()))
        starts, values = under_the_train(data)
        self.assertEqual((starts, [grad for grad, _, _ in values]), ((0, 50_000, 50_101), [3, 2, 3]))

    def test_kn_counts_by_tenths(self):
        """Kn+ of 10 m/s² at 0.5 per mille: 0.005 m/s² less, and 0.0045 m/s² more by the gradient."""
        data = data_part(track=gradient((0, 5)), rotating_mass=9, kn_up=1000)
        brake = brakes_of(data_of(read_document(data.encode())))["normal"]
        self.assertEqual(F(brake.slopes[0][0], 2 * 10**9 * brake.q), 1 + F(45, 10_000) - F(5, 1000))

    def test_version_1_tenfold_is_version_2(self):
        text = (EXAMPLES / "gradient-under-train" / "input").read_text()
        tenfold = text.replace("version = 1", "version = 2").replace("grad = -10", "grad = -100")
        self.assertEqual(collect(["run"], tenfold.encode()), collect(["run"], text.encode()))


class Refusals(unittest.TestCase):
    def test_what_is_refused(self):
        special = area("no_special", 90_000, 100_000)
        for data, due in [
            (data_part(band="emergency_reduced = 101", track=special), "value train.band[1].emergency_reduced"),
            (data_part(band="emergency_reduced = 0"), "value train.band[1].emergency_reduced"),
            (data_part(band="emergency_reduced = true"), "wrong kind train.band[1].emergency_reduced"),
            (data_part(band="emergency_reduced = 101", kn_down=1001), "value train.band[1].kn_down"),
            (data_part(1, band="emergency_reduced = 80", track=special), "unknown key in train.band[1]"),
            (data_part(1, track=special), "unknown key in track"),
            (data_part(3), "value version"),
            (data_part(track=gradient((0, 801))), "value track.gradient[1].grad"),
            (data_part(track=gradient((0, -801))), "value track.gradient[1].grad"),
            (data_part(1, track=gradient((0, 81))), "value track.gradient[1].grad"),
            (data_part(1, track=gradient((0, -81))), "value track.gradient[1].grad"),
            (data_part(1, track=gradient((1, 81)), length=0), "value train.length"),
            (data_part(track=area("no_special", 0, 200_001)), "value track.no_special[1].end"),
            (data_part(track=area("no_special", 7, 7)), "value track.no_special[1].end"),
            (data_part(track=area("no_special", 7, 9) + area("no_special", 8, 10)), "order track.no_special[2]"),
            (data_part(track="".join(area("no_special", i, i + 1) for i in range(65))), "count track.no_special"),
            (data_part(track=area("no_special", 7, 7) + area("adhesion", 7, 7)), "value track.adhesion[1].end"),
        ]:
            with self.subTest(due=due):
                self.assertEqual(fault(data), due)

    def test_what_is_just_accepted(self):
        for data in (
            data_part(band="emergency_reduced = 1"),
            data_part(track=gradient((0, 800))),
            data_part(1, track=gradient((0, 80))),
            data_part(track=area("no_special", 7, 9) + area("no_special", 9, 10)),
            data_part(track="".join(area("no_special", i, i + 1) for i in range(64))),
        ):
            self.assertEqual(fault(data), "")


class Upgrade(unittest.TestCase):
    def table(self, data):
        text, err, code = collect(["upgrade"], data.encode())
        self.assertEqual((err, code), ("", 0))
        self.assertNotIn("%%", text.splitlines())
        return tomllib.loads(text)

    def test_the_table_of_the_plain_train(self):
        due = tomllib.loads(PLAIN)
        due["version"] = 2
        due["track"]["speed"][0]["delayed"] = True
        due["authority"]["release"] = 0
        self.assertEqual(self.table(PLAIN), due)

    def test_the_layout_is_that_of_toml(self):
        table = {"b": {"d": [{"y": 1, "x": "end"}, {"x": "limit"}], "c": -1}, "a": True}
        due = 'a = true\n\n[b]\nc = -1\n\n[[b.d]]\nx = "end"\ny = 1\n\n[[b.d]]\nx = "limit"\n'
        self.assertEqual(laid_out(table), due)

    def test_gradients_are_tenfold_and_those_of_version_2_are_not(self):
        grads = lambda data: [entry["grad"] for entry in self.table(data)["track"]["gradient"]]
        self.assertEqual(grads(data_part(1, track=gradient((0, 80), (1, -80), (2, 1)))), [800, -800, 10])
        self.assertEqual(grads(data_part(2, track=gradient((0, 80), (1, -80), (2, 1)))), [80, -80, 1])

    def test_optional_keys_stand_where_there_is_a_value(self):
        self.assertEqual(self.table(PLAIN)["train"]["rotating_mass"], 0)
        self.assertNotIn("rotating_mass", self.table(data_part(1).replace("rotating_mass = 0\n", ""))["train"])
        self.assertNotIn("emergency_reduced", self.table(data_part(2))["train"]["band"][0])
        given = self.table(data_part(2, band="emergency_reduced = 100"))
        self.assertEqual(given["train"]["band"][0]["emergency_reduced"], 100)
        lists = "length = 200000\ngradient = []\nadhesion = []\nno_special = []"
        empty = data_part(2).replace("length = 200000", lists)
        self.assertEqual(set(self.table(empty)["track"]), {"length", "speed"})

    def test_the_rules_give_the_data_back(self):
        for name in (
            "approach",
            "two-bands",
            "gradient-under-train",
            "limit-of-authority",
            "release-speed",
            "reduced-adhesion",
            "special-brake",
        ):
            table = read_document((EXAMPLES / name / "input").read_bytes().partition(b"%%")[0])
            self.assertEqual(data_of(table_of(data_of(table))), data_of(table))

    def test_run_gives_the_same_rows(self):
        text = (EXAMPLES / "gradient-under-train" / "input").read_text()
        data, records = text.partition("%%")[0], text.partition("%%\n")[2]
        upgraded = collect(["upgrade"], data.encode())[0]
        self.assertEqual(collect(["run"], (upgraded + "%%\n" + records).encode()), collect(["run"], text.encode()))

    def test_what_is_refused(self):
        end = lambda data: collect(["upgrade"], data)[1:]
        self.assertEqual(end(b"a = \n"), ("sdm: bad data: not TOML\n", 5))
        self.assertEqual(end((PLAIN + "%%\n").encode()), ("sdm: bad data: not TOML\n", 5))
        self.assertEqual(end(b""), ("sdm: bad data: missing version\n", 5))
        self.assertEqual(
            end(data_part(1, track=gradient((0, 81))).encode()), ("sdm: bad data: value track.gradient[1].grad\n", 5)
        )
        self.assertEqual(end(b" " * 16_777_217), ("sdm: input too long\n", 4))
        self.assertEqual(collect(["upgrade", "x"])[1:], ("sdm: bad words\n", 1))

    def test_slopes_and_the_authority_are_not_tested(self):
        self.assertEqual(self.table(data_part(1, emergency=1, svl=1))["authority"]["svl"], 1)
