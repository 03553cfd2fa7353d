"""why and curves say what the pages of examples/ work out by hand."""
import csv
import io
import tempfile
import unittest
from pathlib import Path

from tests.folders import EXAMPLES
from tests.tool import program, tool


def why(name, row, *words, data=b""):
    return tool("why", EXAMPLES / name / "input", row, "--program", "/nowhere", *words, data=data)[1]


class Why(unittest.TestCase):
    def test_the_worked_row_of_realistic(self):
        told = why("realistic", 1)
        for text in (
            "V_bec 40.5 m/s",
            "D_bec 121.5 m",
            "EBI 3987.048",
            "printed 3987048",
            "T_berem 3 s",
            "EOA at 5000 m",
        ):
            self.assertIn(text, told)

    def test_causes_and_commands_of_approach(self):
        told = why("approach", 2)
        for text in (
            "SvL at 1000 m: past EBI",
            "tco 1 before, 1 now: set by warn, serv, emer",
            "eb  0 before, 1 now: set by emer",
            "the front end is past it",
            "status X, before W: a brake is commanded",
            "covered 0: past the EBI of SvL",
        ):
            self.assertIn(text, told)
        self.assertIn("eb  1 before, 1 now: held", why("approach", 3))
        self.assertIn("tco 1 before, 0 now: released by the permitted speed", why("approach", 3))
        self.assertIn("eb  1 before, 0 now: released by standstill", why("approach", 4))

    def test_an_acceleration_is_told_exactly(self):
        self.assertIn("A_est -0.3 m/s², under-reading 500 mm/s", why("interventions", 13))

    def test_a_grain_is_told(self):
        self.assertIn(
            "EBI 860 m, printed 859999, computed 1 grain earlier; the front end is past it", why("band-border", 2)
        )

    def test_the_program_s_row(self):
        with tempfile.TemporaryDirectory() as scratch:
            rows = EXAMPLES / "approach" / "rows"
            words = ("--program", program(Path(scratch), f"cat {rows}"))
            self.assertIn("The program's row is the same.", why("approach", 2, *words))
            words = ("--program", program(Path(scratch), f"sed s/^5,T,X,1/5,T,X,0/ {rows}"))
            self.assertIn("The program's row differs: 5,T,X,0", why("approach", 2, *words))
        self.assertIn("This row is the model's alone. There is no program at /nowhere", why("approach", 2))

    def test_standard_input_and_faults(self):
        data = (EXAMPLES / "approach" / "input").read_bytes()
        self.assertEqual(tool("why", "-", 1, data=data)[0], 0)
        self.assertEqual(tool("why", "-", 5, data=data)[::2], (1, "why: The input has no row 5: it has 4 of them.\n"))
        self.assertIn("bad event 3", tool("why", EXAMPLES / "refused-record/input", 9)[2])
        self.assertIn("bad data", tool("why", EXAMPLES / "refused-data/input", 1)[2])


class Arithmetic(unittest.TestCase):
    """Each step, as the pages of examples/ and docs/PROFILE.md work it out by hand."""

    def holds(self, told, *texts):
        for text in texts:
            self.assertIn(text, told)

    def test_bands_and_a_gradient_of_realistic(self):
        """Two bands, wet rails, a fall of 5 per mille up to 4200 m; no rotating mass is given."""
        self.holds(
            why("realistic", 1),
            "T_traction = max(2 − (T_warning 2 + T_bs 4), 0) = 0 s",
            "T_berem = max(3 − 0, 0) = 3 s",
            "T_indication = max(0.8 · 4, 5) + 4 = 9 s",
            "= 0.85 · (0.95 + 0 · (1 − 0.95)) · 1.2 = 0.969 m/s²",
            "= 0.85 · (0.95 + 0 · (1 − 0.95)) · 1 = 0.8075 m/s²",
            "9.81 · (-50)/(10,000 + 100 · 2), the mass isn't known, = -0.048089… m/s²",
            "A_safe = A_brake_safe + A_gradient = 0.8075 + (-0.048089…) = 0.759411… m/s²",
            "EBD, band 2 (from 100 km/h), front end from 2000 m to 4200 m, -5 ‰ (grad -50) under the train:",
            "from 5050 m with 0 m/s back to 27.777777… m/s: (771.604938… − 0)/(2 · 0.969) = 398.144962… m, at 4651.85",
            "back to 40.5 m/s: (1640.25 − 1501.350823…)/(2 · 0.759411…) = 91.45182… m, at 4108.54817",
            "= max(40 + 0.5 + 0, 0) + 0 = 40.5 m/s",
            "= 40.5 · 0 + (40.5 + 0) · 3 = 121.5 m",
            "EBI = d_EBD(V_bec) − D_bec = 4108.548179… − 121.5\n",
            "SBI = EBI − V_est · T_bs = 3987.048179… − 40 · 4\n",
            "I   = P − V_est · T_indication = 3667.048179… − 40 · 9\n",
        )

    def test_an_area_of_reduced_adhesion(self):
        """v² = 2 · 0.7 · 100 = 140 at 900 m; at 20 m/s the EBI lies at 900 − 130 = 770 m. The SBD isn't reduced."""
        self.holds(
            why("reduced-adhesion", 1),
            "A_brake_safe = min(Kdry · (Kwet + M_NVAVADH · (1 − Kwet)) · A_em = 1 · (1 + 1 · (1 − 1)) · 1, "
            "adhesion_max 0.7) = 0.7 m/s²",
            "from 1000 m with 0 m/s back to 900 m, where the stretch ends: √(0 + 2 · 0.7 · 100) = 11.83215",
            "from 900 m with 11.83215",
            "(400 − 140)/(2 · 1) = 130 m, at 770 m",
            "SBD, one band, front end from 900 m to 1100 m, 0 ‰ (grad 0) under the train:",
            "back to 20 m/s: (400 − 200)/(2 · 1) = 100 m, at 800 m",
        )

    def test_a_curve_ahead_of_its_foot(self):
        """At 18 m/s, slower than the foot speed 18.75 m/s: 1000 + (351.5625 − 324)/2 = 1013.781 m."""
        row = next(i for i, line in enumerate(self.rows("limit-of-authority"), 1) if line.startswith("180,"))
        self.holds(
            why("limit-of-authority", row),
            "foot speed w = V_target + dV_ebi(V_target) = 60 + 7.5 km/h = 18.75 m/s",
            "from 1000 m with 18.75 m/s on to 18 m/s: (324 − 351.5625)/(2 · 1) = -13.78125 m, at 1013.78125 m",
        )

    def test_where_two_bands_meet(self):
        """PROFILE "Curves", the check: 982.142857… m at 5 m/s, and 860 m at 14 m/s."""
        told = why("band-border", 2)
        self.holds(told, "at 982.142857142… m", "(196 − 25)/(2 · 0.7) = 122.142857… m, at 860 m")

    def test_a_mass_and_a_fall(self):
        """PROFILE "Decelerations", the check: 9 percent and 9.5 per mille down are -0.0855 m/s², and 1 m/s² 0.9145."""
        text = (EXAMPLES / "approach" / "input").read_text()
        text = text.replace("version = 1", "version = 2").replace("rotating_mass = 0", "rotating_mass = 9")
        text = text.replace("[[track.speed]]", "[[track.gradient]]\nstart = 0\ngrad = -95\n[[track.speed]]", 1)
        told = tool("why", "-", 1, "--program", "/nowhere", data=text.encode())[1]
        self.holds(told, "9.81 · (-95)/(10,000 + 100 · 9) = -0.0855 m/s²", "= 1 + (-0.0855) = 0.9145 m/s²")

    def test_the_start_of_release_speed_monitoring(self):
        """PROFILE "Release speed monitoring": by the SBD of the EOA and the EBD of the SvL. At 40 km/h, 11.11 m/s, with
        1 m/s² that is 61.728 m before each of them, and 2 s, 22.222 m, before that by the EBD."""
        self.holds(
            why("calculated-release-speed", 3),
            "V_rel = 40 km/h = 11.111111… m/s",
            "d_SBD(V_rel) − V_rel · T_bs = 438.271604… − 11.111111… · 0 = 438.271604… m",
            "d_EBD(V_rel) − V_rel · (T_traction + T_berem + T_bs) = 488.271604… − 11.111111… · 2 = 466.049382… m",
            "start = min(438.271604…, 466.049382…) = 438.271604… m",
        )

    def test_a_guidance_curve_has_its_own_deceleration(self):
        """Its foot is the target itself: 1000 − v²/(2 · 0.5) = 600 m at 20 m/s."""
        text = (EXAMPLES / "guidance" / "input").read_text()
        told = why("guidance", 1)
        self.assertIn("guidance = true", text)
        self.assertIn("A_normal = normal + A_gradient − Kn · grad/10,000 = 0.5 + 0 − 0 · 0/10,000 = 0.5 m/s²", told)
        self.assertIn("from 1000 m with 0 m/s back to 20 m/s: (400 − 0)/(2 · 0.5) = 400 m, at 600 m", told)
        self.assertIn("P   = d_guide(V_est), which is earlier than SBI − V_est · T_driver", told)

    def rows(self, name):
        return (EXAMPLES / name / "rows").read_text().splitlines()


class Curves(unittest.TestCase):
    def rows(self, name, row, *words):
        code, text, _ = tool("curves", EXAMPLES / name / "input", row, *words)
        self.assertEqual(code, 0)
        return list(csv.DictReader(io.StringIO(text)))

    def test_the_plain_train(self):
        # at 72 km/h: 200 m to the foot; W 40 m, P 80 m, I 260 m before the SBI
        at = {each["target"]: each for each in self.rows("approach", 1, "--step", "36") if each["speed"] == "72"}
        self.assertEqual(
            [at["SvL"][name] for name in "EBD EBI SBI2 W P I".split()],
            ["800000", "800000", "800000", "760000", "720000", "540000"],
        )
        self.assertEqual(
            [at["EOA"][name] for name in "EBD SBD EBI SBI1 SBI2 I".split()], ["", "800000", "", "800000", "", "540000"]
        )

    def test_a_row_s_own_speed_has_its_places(self):
        row = (EXAMPLES / "realistic" / "rows").read_text().splitlines()[0].split(",")
        at = [each for each in self.rows("realistic", 1, "--step", "144") if each["speed"] == "144"]
        self.assertEqual([min(int(each[name]) for each in at) for name in "WPI"], [int(place) for place in row[10:]])

    def test_a_limit_begins_at_its_speed(self):
        speeds = [
            float(each["speed"])
            for each in self.rows("limit-of-authority", 1, "--step", "0.5")
            if each["target"] == "LOA"
        ]
        self.assertEqual(len(speeds), len(set(speeds)))
        self.assertTrue(all(speed >= 1 for speed in speeds) and speeds == sorted(speeds))

    def test_a_step_is_above_0(self):
        self.assertIn("a step is above 0", tool("curves", EXAMPLES / "approach/input", 1, "--step", "0")[2])
