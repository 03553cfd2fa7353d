"""Worked values of PROFILE.md, and of the example pages' arithmetic."""
import unittest
from fractions import Fraction as F

from sdm_evidence.model.curves import BrakeCurve
from sdm_evidence.model.data import Limit
from sdm_evidence.model.decelerations import Brake, brakes_of
from sdm_evidence.model.journey import cycles
from sdm_evidence.model.limits import Target, times_of, until_the_emergency_brake_works
from sdm_evidence.model.records import Reading, Restriction
from sdm_evidence.model.release import release_start
from sdm_evidence.model.speeds import dV_ebi, dV_sbi, dV_warning
from sdm_evidence.model.trial import REALISTIC
from sdm_evidence.model.units import GRAINS_PER_CM, GRAINS_PER_MM, NOTCHES_PER_KM_H, NOTCHES_PER_MM_S
from sdm_evidence.model.words import collect, open_run

from tests.folders import EXAMPLES

M, M_S = 1000 * GRAINS_PER_MM, 1000 * NOTCHES_PER_MM_S


def example(name):
    return open_run((EXAMPLES / name / "input").read_bytes())


def still(mm, speed, accel=0, under=0, time=0, around=0):
    return Reading(time, mm, mm - around, mm + around, speed, accel, under)


def limits(supervisor, kind, reading, exact=False):
    return [each for each in supervisor.situation(reading, exact).targets if each.target.kind == kind][0]


class Units(unittest.TestCase):
    def test_the_table_agrees_with_itself(self):
        self.assertEqual(M, 540_000_000_000)
        self.assertEqual(M_S, 54_000)
        self.assertEqual(NOTCHES_PER_KM_H * 36, 10 * M_S)  # 36 km/h are 10 m/s
        self.assertEqual(M_S * 10 * 1_000_000, M)  # 1 m/s for 1 s
        # the whole-number formula of curves: v² = 2 · a · way with 1 m/s² over 50 m gives 10 m/s
        q, slope = 100, 2 * 10**9 * 100
        self.assertEqual(5 * 10**12 * q * (10 * M_S) ** 2, 27 * slope * 50 * M)

    def test_a_cell_is_rounded_down(self):
        self.assertEqual(
            [Reading(0, mm, mm, mm, 0, 0, 0).cell("est") for mm in (-11, -10, -1, 0, 9, 10)], [-2, -1, -1, 0, 0, 1]
        )


class Decelerations(unittest.TestCase):
    def test_realistic(self):
        safe = brakes_of(REALISTIC)["safe"]
        Q = 2 * 10**9 * safe.q
        self.assertEqual([[F(slope, Q) for slope in column] for column in zip(*safe.slopes)][0][0], F(969, 1000))
        self.assertEqual(F(safe.slopes[0][1], Q), F(8075, 10000))
        self.assertEqual([border // GRAINS_PER_CM for border in safe.borders], [200_000, 420_000])

    def test_gradient_under_train(self):
        supervisor, _ = example("gradient-under-train")
        safe = supervisor.curves.brakes["safe"]
        self.assertEqual([F(column[0], 2 * 10**9 * safe.q) for column in safe.slopes], [F(91, 100), 1])
        self.assertEqual([border // GRAINS_PER_CM for border in safe.borders], [70_000])

    def test_exactly_a_twentieth_is_accepted_and_exactly_sixteenfold(self):
        def end(emergency, service):
            text = (EXAMPLES / "approach" / "input").read_text()
            text = text.replace("emergency = 100", f"emergency = {emergency}").replace("kdry = 1000", "kdry = 500")
            text = text.replace("service = 100", f"service = {service}").replace("normal = 100", "normal = 80")
            text = text.replace("[authority]", "[[track.adhesion]]\nstart = 5\nend = 6\n\n[authority]")
            return collect(["run"], text.replace("adhesion_max = 70", "adhesion_max = 5").encode())[1]

        self.assertEqual(end(10, 5), "")
        self.assertEqual(end(9, 5), "sdm: refused: too weak: safe band 1 cell 0\n")
        self.assertEqual(end(160, 5), "")
        self.assertEqual(end(161, 5), "sdm: refused: too varied: safe band 1\n")
        self.assertEqual(end(161, 4), "sdm: refused: too varied: safe band 1\n")
        self.assertEqual(end(160, 4), "sdm: refused: too weak: expected band 1 cell 0\n")

    def test_up_to_eight_bands_differ_sixteenfold_nine_and_ten_eightfold(self):
        def end(bands, emergency):
            text = (EXAMPLES / "approach" / "input").read_text()
            head, rest = text.replace("emergency = 100", f"emergency = {emergency}").split("[[train.band]]\n")
            band, rest = rest.split("\n[national]")
            lower = "".join(f"[[train.band]]\nupper = {10 * i}\n{band}\n" for i in range(1, bands))
            rest = rest.replace("adhesion_max = 70", "adhesion_max = 10")
            rest = rest.replace("[authority]", "[[track.adhesion]]\nstart = 5\nend = 6\n\n[authority]")
            return collect(["run"], f"{head}{lower}[[train.band]]\n{band}\n[national]{rest}".encode())[1]

        self.assertEqual([end(bands, 160) for bands in (1, 7, 8)], [""] * 3)
        self.assertEqual([end(bands, 161) for bands in (1, 7, 8)], ["sdm: refused: too varied: safe band 1\n"] * 3)
        self.assertEqual([end(bands, 80) for bands in (9, 10)], [""] * 2)
        self.assertEqual([end(bands, 81) for bands in (9, 10)], ["sdm: refused: too varied: safe band 1\n"] * 2)
        self.assertEqual(end(11, 81), "sdm: bad data: band count\n")


class Speeds(unittest.TestCase):
    def test_margins(self):
        km_h = lambda margin, v: F(margin(v), NOTCHES_PER_KM_H)
        self.assertEqual([km_h(dV_ebi, v) for v in (1, 110, 160, 210, 500)], [F(15, 2), F(15, 2), F(45, 4), 15, 15])
        self.assertEqual([km_h(dV_sbi, v) for v in (1, 110, 160, 210, 500)], [F(11, 2), F(11, 2), F(31, 4), 10, 10])
        self.assertEqual([km_h(dV_warning, v) for v in (1, 110, 125, 140, 500)], [4, 4, F(9, 2), 5, 5])

    def test_a_restriction_counts_with_its_rear_and_not_before_cell_0(self):
        supervisor, _ = example("approach")
        supervisor.take(Restriction(1, 0, 100, 40, 1))
        at = lambda mm: supervisor.situation(still(mm, 0)).M
        self.assertEqual([at(mm) for mm in (-1, 0, 100_999, 101_000)], [160, 40, 40, 160])
        supervisor.take(Restriction(2, 0, 100, 30, 0))
        self.assertEqual([at(mm) for mm in (-1, 0, 999, 1_000)], [160, 30, 30, 40])
        fall = supervisor.situation(still(-10, 0)).targets[0].target
        self.assertEqual((fall.kind, fall.place, fall.V_target), ("Mrsp", 0, 30))
        # a front end at a fall isn't before it: the fall is a target only past the max safe front end
        self.assertEqual(supervisor.situation(still(0, 0)).targets[0].target.kind, "Eoa")


class Curves(unittest.TestCase):
    def bands(self, *emergency):
        uppers = tuple(NOTCHES_PER_KM_H * upper for upper, _ in emergency if upper)
        return Brake("safe", 100, uppers, (), (tuple(a * 2 * 10**9 for _, a in emergency),))

    def test_the_check_of_the_page(self):
        brake = self.bands((18, 70), (None, 70))
        stepped, exact = BrakeCurve(brake, 1000 * M, 0), BrakeCurve(brake, 1000 * M, 0, exact=True)
        self.assertEqual(exact.place(5 * M_S), 1000 * M - F(25 * M * 10, 14))
        self.assertEqual(stepped.place(5 * M_S), int(exact.place(5 * M_S)))
        self.assertEqual(exact.place(14 * M_S), 860 * M)
        self.assertEqual(stepped.place(14 * M_S), 860 * M - 1)

    def test_ten_bands_are_rounded_ten_times(self):
        brake = self.bands(*((18 * i, 70) for i in range(1, 10)), (None, 70))
        stepped, exact = BrakeCurve(brake, 2000 * M, 0), BrakeCurve(brake, 2000 * M, 0, exact=True)
        # what is lost at 18 km/h, 36 km/h and so on, in sevenths of a grain: 6, 4, 2, 0, 5, 3, 1, 6, 4, and 4 at the
        # end
        lost = [(exact.place(5 * i * M_S) - stepped.place(5 * i * M_S)) * 7 for i in range(1, 10)]
        self.assertEqual(lost, [6, 10, 12, 12, 17, 20, 21, 27, 31])
        self.assertEqual(exact.place(49 * M_S), 285 * M)
        self.assertEqual(stepped.place(49 * M_S), 285 * M - 5)

    def test_two_bands(self):
        curve = BrakeCurve(self.bands((36, 100), (None, 50)), 1000 * M, 0)
        self.assertEqual([curve.place(v * M_S) for v in (20, 10, 8, 0)], [650 * M, 950 * M, 968 * M, 1000 * M])

    def test_foot_at_an_upper_speed(self):
        """Back in the band above it, forward in the band below it."""
        curve = BrakeCurve(self.bands((36, 100), (None, 50)), 1000 * M, 10 * M_S)
        self.assertEqual([curve.place(v * M_S) for v in (20, 10, 8)], [700 * M, 1000 * M, 1018 * M])

    def test_realistic(self):
        supervisor, _ = example("realistic")
        svl = limits(supervisor, "Svl", Reading(0, 3_300_000, 3_295_000, 3_305_000, 40_000, 0, 500))
        self.assertEqual((svl.V_bec, svl.D_bec), (40_500 * 54, 121_500 * GRAINS_PER_MM))
        shown = lambda place: round(F(place * 100_000, M))  # as the page: to a hundredth of a millimetre
        self.assertEqual([shown(svl.curve), shown(svl.d_EBI)], [410_854_818, 398_704_818])
        self.assertEqual(shown(supervisor.curves.d_EBD(5050 * M, 0, 100 * NOTCHES_PER_KM_H)), 465_185_504)

    def test_reduced_adhesion(self):
        supervisor, _ = example("reduced-adhesion")
        for speed, place in ((20_000, 770 * M), (12_000, 898 * M)):
            self.assertEqual(limits(supervisor, "Svl", still(690_000, speed)).d_EBI, place)


class Limits(unittest.TestCase):
    def test_times(self):
        train, national = REALISTIC.train, REALISTIC.national
        self.assertEqual(times_of(REALISTIC), (True, 40, 0, 30, 90))
        without = REALISTIC._replace(train=train._replace(traction_cutoff_interface=False))
        self.assertEqual(times_of(without), (True, 40, 20, 10, 90))
        unused = REALISTIC._replace(national=national._replace(service_in_target=False))
        self.assertEqual(times_of(unused), (False, 0, 0, 30, 90))
        slow = REALISTIC._replace(train=train._replace(service_time=300, traction_cutoff_time=300, emergency_time=10))
        self.assertEqual(times_of(slow), (True, 300, 0, 10, 280))
        early = slow._replace(train=slow.train._replace(service_time=0))
        self.assertEqual(times_of(early), (True, 0, 280, 0, 90))

    def test_trial_page(self):
        times = times_of(REALISTIC)
        at = lambda speed, accel: until_the_emergency_brake_works(REALISTIC, times, still(0, speed, accel, 500), 0)
        self.assertEqual(at(14_987, -46), (15_487 * 54, 46_461 * GRAINS_PER_MM))
        self.assertEqual(at(4_085, -5), (4_585 * 54, 13_755 * GRAINS_PER_MM))
        self.assertEqual(at(19_570, 27), (20_880 * 54, 61_425 * GRAINS_PER_MM))

    def test_limit_of_authority(self):
        supervisor, _ = example("limit-of-authority")
        loa = limits(supervisor, "Loa", still(500_000, 25_000))
        self.assertEqual(loa.target.foot_speed, 18_750 * 54)
        self.assertEqual(
            [getattr(loa, name) // GRAINS_PER_MM for name in ("d_EBI", "d_W", "d_P", "d_I")],
            [863_281, 813_281, 763_281, 538_281],
        )
        self.assertEqual(limits(supervisor, "Loa", still(500_000, 18_000)).d_EBI, F(101378125, 100000) * M)

    def test_guidance_takes_P_alone(self):
        supervisor, _ = example("guidance")
        for speed, P in ((20_000, 600 * M), (8_000, 936 * M), (6_800, 949_680 * GRAINS_PER_MM)):
            eoa = limits(supervisor, "Eoa", still(0, speed))
            self.assertEqual(eoa.d_P, P)
            self.assertEqual(eoa.d_SBI, 1000 * M - F(speed * speed, 2_000_000) * M)
        self.assertIsNone(limits(supervisor, "Svl", still(0, 20_000)).guide)

    def test_release_start(self):
        supervisor, _ = example("release-speed")
        start = release_start(supervisor.times, supervisor.curves, supervisor.authority)
        self.assertEqual(start, F(9875, 10) * M)
        self.assertIsNone(release_start(supervisor.times, supervisor.curves, Limit(100_000, 60)))
        self.assertFalse(supervisor.situation(still(987_500, 100)).in_release)
        self.assertTrue(supervisor.situation(still(987_501, 100)).in_release)

    def test_a_fall_at_the_end_is_a_target_and_one_past_it_is_none(self):
        supervisor, _ = example("approach")
        supervisor.take(Restriction(1, 100_000, 120_000, 40, 0))
        supervisor.take(Restriction(2, 100_001, 120_000, 30, 0))
        kinds = [each.target for each in supervisor.situation(still(0, 20_000)).targets]
        self.assertEqual(kinds, [Target("Mrsp", 1000 * M, 40), Target("Eoa", 1000 * M, 0), Target("Svl", 1000 * M, 0)])


class Causes(unittest.TestCase):
    def causes(self, name):
        supervisor, events = example(name)
        return {cycle.row.time: cycle for cycle in cycles(supervisor, events)}

    def test_interventions(self):
        by = self.causes("interventions")
        self.assertEqual([cause.by.target.kind for cause in by[160].triggers.serv], ["Svl"])
        self.assertEqual(by[160].decision.why, {"tco": "set", "sb": "set", "eb": "off"})
        self.assertEqual([cause.by.target.kind for cause in by[230].triggers.emer], ["Svl"])
        self.assertEqual(
            by[430].decision.why,
            {"tco": "released by the permitted speed", "sb": "released by the permitted speed", "eb": "held"},
        )
        self.assertEqual(by[590].decision.why["eb"], "released by standstill")

    def test_the_others(self):
        self.assertEqual(self.causes("early-release")[210].decision.why["eb"], "released by early release")
        self.assertEqual(self.causes("no-service-brake")[150].triggers.emer[0].rule, "no service brake")
        release = self.causes("release-speed")
        self.assertEqual([cause.rule for cause in release[341].triggers.emer], ["release speed"])
        self.assertEqual([cause.rule for cause in release[471].triggers.emer], ["end of authority"])
        self.assertEqual(self.causes("over-the-ceiling")[200].triggers.emer[0].rule, "ceiling")
