"""The calculated release speed: values worked by hand, what it means for a train that is tripped, and the record."""
import random
import unittest

from sdm_evidence.model.data import Area, Gradient, Stop
from sdm_evidence.model.journey import Supervisor
from sdm_evidence.model.outcome import Outcome, Refused
from sdm_evidence.model.records import Calculated, event_of
from sdm_evidence.model.release import calculated, fits, latest_trip
from sdm_evidence.model.units import GRAINS_PER_CM, GRAINS_PER_MM, NOTCHES_PER_KM_H, distance_at
from sdm_evidence.model.words import collect, open_run

from tests.folders import EXAMPLES
from tests.model.test_by_cells import small_data, walk

APPROACH = (EXAMPLES / "approach" / "input").read_text()


def approach(band=(), track=(), **train):
    """The supervisor of the plain train: 100 m long, 1 m/s², level, 2 km, no times; parts of its data may differ."""
    data = open_run(APPROACH.encode())[0].data
    bands = tuple(each._replace(**dict(more)) for each, more in zip(data.train.band * 9, band or [()]))
    train = data.train._replace(band=bands, **train)
    return Supervisor(data._replace(train=train, track=data.track._replace(**dict(track))))


def speed(supervisor, svl, trip):
    """The release speed that `endcalc` comes to, with the EOA at the trip place."""
    return supervisor.authority_of(Calculated(trip, svl, trip)).release


class Values(unittest.TestCase):
    """With a m/s² and T s, v fits where v²/(2a) + v · T is at most the way from the trip to the SvL: here 40 m."""

    def test_by_the_brake(self):
        # v² <= 80 m²/s²: 8.944 m/s are 32.20 km/h
        self.assertEqual(speed(approach(), 105_000, 101_000), 32)
        # 0.5 m/s² of the emergency brake ask v² <= 40: 6.325 m/s are 22.77 km/h; so does a Kdry of 0.5
        self.assertEqual(speed(approach([{"emergency": 50}]), 105_000, 101_000), 22)
        self.assertEqual(speed(approach([{"kdry": 500}]), 105_000, 101_000), 22)
        # the service brake counts nothing
        self.assertEqual(speed(approach([{"service": 50}]), 105_000, 101_000), 32)

    def test_by_the_build_up_time(self):
        # v² + 4v <= 80: v is at most -2 + sqrt(84), 7.165 m/s, which are 25.79 km/h
        self.assertEqual(speed(approach(emergency_time=20), 105_000, 101_000), 25)
        # T_traction makes T_berem 0, and T_be is 2 s all the same; by themselves the other times count nothing
        self.assertEqual(speed(approach(emergency_time=20, traction_cutoff_time=20), 105_000, 101_000), 25)
        self.assertEqual(speed(approach(traction_cutoff_time=20, service_time=50), 105_000, 101_000), 32)

    def test_by_gradients_and_areas(self):
        # 20 per mille downhill with no mass: 1 - 0.1962 m/s²; v² <= 64.304: 8.019 m/s are 28.87 km/h
        self.assertEqual(speed(approach(track={"gradient": (Gradient(0, -200),)}), 105_000, 101_000), 28)
        # an area in which 0.7 m/s² count: v² <= 56: 7.483 m/s are 26.94 km/h
        self.assertEqual(speed(approach(track={"adhesion": (Area(95_000, 96_000),)}), 105_000, 101_000), 26)
        # another one ends for the front end at 1030 m, 100 m behind its own end. From the trip at 1010 m on 20 m are
        # braked with 0.7 and 20 m with 1 m/s²: v² <= 28 + 40 = 68: 8.246 m/s are 29.69 km/h
        self.assertEqual(speed(approach(track={"adhesion": (Area(92_000, 93_000),)}), 105_000, 101_000), 29)

    def test_a_speed_that_just_fits(self):
        # 36 km/h are 10 m/s and need 50 m
        self.assertEqual([speed(approach(), 105_000, trip) for trip in (99_999, 100_000, 100_001)], [36, 36, 35])
        # with 0.7 m/s² 63 km/h are 17.5 m/s and need 306.25/1.4 = 218.75 m
        weaker = approach([{"emergency": 70}])
        self.assertEqual([speed(weaker, 105_000, 105_000 - way) for way in (21_875, 21_874)], [63, 62])

    def test_a_stepped_place_decides(self):
        """Two bands of 0.7 m/s² that meet at 18 km/h: there the exact place, 125/7 m before the foot, is no grain."""
        bands = [{"emergency": 70, "upper": 18}, {"emergency": 70}]
        supervisor, trip = approach(bands), 105_000 - 21_875
        place = lambda exact: latest_trip(supervisor.curves, 0, 105_000, 63, exact)
        self.assertEqual((place(True), place(False)), (trip * GRAINS_PER_CM, trip * GRAINS_PER_CM - 1))
        self.assertEqual([speed(supervisor, 105_000, each) for each in (trip, trip - 1)], [62, 63])

    def test_none_and_the_greatest(self):
        self.assertEqual(speed(approach(), 105_000, 105_000), 0)
        # 1 km/h needs 1/25.92 m, 3.86 cm
        self.assertEqual([speed(approach(), 105_000, 105_000 - way) for way in (3, 4)], [0, 1])
        # 500 km/h need 500²/25.92 = 9645.06 m; more way gives no more
        far = approach(track={"length": 5_000_000})
        far_trips = [5_000_000 - way for way in (964_506, 964_507, 2_000_000)]
        self.assertEqual([speed(far, 5_000_000, trip) for trip in far_trips], [499, 500, 500])


class Meaning(unittest.TestCase):
    def test_the_train_stops_and_one_that_is_faster_does_not(self):
        """Tripped with the speed it runs on for T_be and brakes, cell by cell: it stands at or before the SvL. With a
        km/h more, tripped a millimetre later, it doesn't."""
        rng, greatest = random.Random(5), set()
        while len(greatest) < 9:
            data = small_data(rng)
            data = data._replace(train=data.train._replace(emergency_time=rng.choice([0, 0, 3, 10])))
            try:
                curves = Supervisor(data).curves
            except Refused:
                continue
            trip, T_be = rng.randint(0, 300), data.train.emergency_time
            svl = rng.randint(trip, 600)
            v = calculated(curves, T_be, svl, trip)
            self.assertTrue(all(fits(curves, T_be, svl, trip, each) == (each <= v) for each in range(20)))

            def stands(v, mm):
                V = v * NOTCHES_PER_KM_H
                braked = trip * GRAINS_PER_CM + mm * GRAINS_PER_MM + distance_at(V, T_be)
                return walk(data, "safe", braked, V, 0, False)

            self.assertLessEqual(stands(v, 0), svl * GRAINS_PER_CM, (data, trip, svl, v))
            self.assertGreater(stands(v + 1, 1), svl * GRAINS_PER_CM, (data, trip, svl, v))
            greatest.add(v)


class Record(unittest.TestCase):
    def end(self, *lines):
        data = APPROACH.partition("%%")[0]
        return collect(["run"], (data + "%%\n" + "".join(line + "\n" for line in lines)).encode())

    def test_it_does_what_end_does(self):
        readings = [
            f"read,{i},{mm},{mm},{mm},{v},0,0"
            for i, (mm, v) in enumerate(
                [(900_000, 9_000), (961_000, 8_888), (961_000, 8_889), (961_000, 0), (1_000_001, 1), (1_000_001, 0)]
            )
        ]
        due = self.end("end,100000,105000,32", *readings)
        self.assertEqual(self.end("endcalc,100000,105000,101000", *readings), due)
        self.assertNotEqual(self.end("end,100000,105000,31", *readings), due)
        # 8,888 mm/s are 31.997 km/h, 8,889 are 32.0004
        self.assertEqual(due[0].splitlines()[1:3], ["1,R,I,0,0,0,0,160,-,-,-,-,-", "2,R,X,1,0,1,0,160,-,-,-,-,-"])

    def test_refusals_in_their_order(self):
        for line, fault in [
            ("endcalc,0,0", "field count"),
            ("endcalc,0,0,0,x", "field count"),
            ("Endcalc,0,0,0", "unknown kind"),
            ("endcalc,x,-1,0", "field 2: not a number"),
            ("endcalc,0,10000001,x", "field 3: out of range"),
            ("endcalc,1,0,-1", "field 4: out of range"),
            ("endcalc,1,0,10000001", "field 4: out of range"),
            ("endcalc,100000,99999,100000", "supervised location before end"),
            ("endcalc,0,200001,0", "beyond track"),
            ("endcalc,1,200001,0", "beyond track"),
            ("endcalc,100000,105000,105001", "bad trip place"),
            ("endcalc,100000,105000,99999", "bad trip place"),
            ("endcalc,0,0,10000000", "bad trip place"),
        ]:
            self.assertEqual(self.end(line), ("", f"sdm: bad event 1: {fault}\n", 7), line)
        for line in (
            "endcalc,100000,105000,105000",
            "endcalc,100000,105000,100000",
            "endcalc,0,0,0",
            "endcalc,200000,200000,200000",
        ):
            self.assertEqual(self.end(line), ("", "", 0), line)

    def test_what_is_refused_changes_nothing(self):
        supervisor = approach()
        supervisor.take(Stop(90_000, 95_000, 9))
        for line in (b"endcalc,100000,105000,105001", b"endcalc,100000,105000,99999", b"endcalc,100000,205000,101000"):
            with self.assertRaises(Refused):
                supervisor.take(event_of(line.split(b",")))
            self.assertEqual(supervisor.authority, Stop(90_000, 95_000, 9))

    def test_the_data_part_has_no_such_kind(self):
        text = APPROACH.replace('kind = "end"', 'kind = "endcalc"')
        with self.assertRaisesRegex(Outcome, "value authority.kind"):
            open_run(text.encode())
