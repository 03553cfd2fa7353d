"""decelerations/ and curves/: what a brake is worth in a band and a cell, and the places of its curves."""
from .plain import KM, Journey, limit, plain, stop

STEEP = {"gradient": [{"start": 0, "grad": 0}, {"start": 4 * KM, "grad": -20}, {"start": 4 * KM + 3_000, "grad": 10},
                      {"start": 48 * KM // 10, "grad": 30}, {"start": 5 * KM, "grad": -15}]}
AREAS = {"adhesion": [{"start": 1_000, "end": 30_000}, {"start": 30_000, "end": 31_000},
                      {"start": 4_500 * 100, "end": 4_600 * 100}]}
KN = {"service": 90, "normal": 80, "kn_up": 700, "kn_down": 300}


def journey_over(train=(), bands=None, national=(), track=(), authority=None, speeds=(8_000, 20_000, 40_000),
                 version=1):
    """Limits of the authority's targets at some speeds, at each of their limits and a millimetre past it."""
    journey = Journey(plain(train, bands, national, track, authority, version))
    kinds = ("Loa",) if authority and authority["kind"] == "limit" else ("Eoa", "Svl")
    for v in speeds:
        journey.rest().read(v)
        for kind in kinds:
            name = "d_SBI" if kind == "Eoa" else "d_EBI"
            journey.rest().at(kind, name, v, 0).at(kind, name, v, 1)
        if dict(national).get("guidance") and kinds[0] != "Svl":
            journey.rest().at(kinds[0], "d_P", v, 0).at(kinds[0], "d_P", v, 1)
    return journey


def decelerations():
    mass = {"rotating_mass": 12}
    yield "known-mass", "gradients under a train of 100 m, a mass of 12 percent", journey_over(mass, track=STEEP)
    document = plain(track=STEEP)
    del document["train"]["rotating_mass"]
    journey = Journey(document)
    for v in (8_000, 20_000, 40_000):
        journey.rest().read(v).at("Svl", "d_EBI", v, 0).at("Svl", "d_EBI", v, 1)
    yield "unknown-mass", "the same with no mass given: 15 percent uphill and on the level, 2 downhill", journey
    yield "uphill", "uphill all the way, short train", journey_over(
        mass | {"length": 1}, track={"gradient": [{"start": 0, "grad": 25}]})
    yield "before-the-track", "the first gradient and an area at 0 count before cell 0", before_the_track(
        {"gradient": [{"start": 0, "grad": 18}, {"start": 20_000, "grad": -9}],
         "adhesion": [{"start": 0, "end": 1_000}, {"start": 15_000, "end": 20_000}]})
    yield "past-the-track", "the last gradient counts past the track's end", journey_over(
        {"length": 30_000}, track={"length": 5 * KM, "gradient": [{"start": 0, "grad": -5}, {"start": 5 * KM - 1, "grad": 60}]})
    yield "adhesion", "areas of reduced adhesion, which count until the rear end has left; the SBD is as it was", \
        journey_over({"length": 20_000}, track=AREAS)
    yield "adhesion-of-a-weak-brake", "the brake is weaker than the maximum on reduced adhesion", journey_over(
        bands=[{"emergency": 65}], track=AREAS)
    for avadh in (0, 7, 20):
        yield f"wet-{avadh}", f"Kdry 0.85, Kwet 0.6 and an M_NVAVADH of {avadh}/20", journey_over(
            bands=[{"kdry": 850, "kwet": 600}], national={"avadh": avadh}, track=AREAS)
    yield "kn", "a guidance curve with Kn uphill and downhill", journey_over(
        bands=[KN], national={"guidance": True}, track=STEEP, authority=limit(5 * KM, 30), speeds=(12_000, 20_000, 40_000))
    yield "kn-to-an-eoa", "the same to an EOA, with a second band", journey_over(
        bands=[KN | {"upper": 60}, KN | {"kn_down": 900}], national={"guidance": True}, track=STEEP)
    yield "kn-on-the-level", "Kn counts nothing on the level", journey_over(bands=[KN], national={"guidance": True})


def before_the_track(track, bands=None, version=1):
    """Curves towards 50 m and 300 m reach before cell 0."""
    journey = Journey(plain(bands=bands, track=track, authority=stop(5_000), version=version), home_mm=-2_000_000)
    for eoa in (5_000, 30_000):
        journey.record("end", eoa, eoa + 100, 0)
        for v in (5_000, 20_000, 33_000):
            journey.rest().at("Svl", "d_EBI", v, 0).at("Svl", "d_EBI", v, 1).rest().at("Eoa", "d_SBI", v, 1)
    return journey


BANDS = [{"upper": 18, "emergency": 70, "service": 70, "normal": 70}, {"upper": 60, "emergency": 90, "service": 80},
         {"upper": 100, "emergency": 60, "service": 55, "normal": 50}, {"emergency": 110, "service": 70, "normal": 70}]


def through_bands(authority, speeds, national=(), track=(), bands=BANDS, version=1):
    journey = Journey(plain({"max_speed": 250}, bands, national, track, authority, version))
    kind = "Svl" if authority["kind"] == "end" else "Loa"
    for v in speeds:
        for by in (0, 1):
            journey.rest().at(kind, "d_EBI", v, by)
            if dict(national).get("guidance") and kind == "Loa":
                journey.rest().at(kind, "d_P", v, by)
        if kind == "Svl":
            journey.rest().at("Eoa", "d_SBI", v, 0).rest().at("Eoa", "d_SBI", v, 1)
    return journey


def rounding():
    """At 14 m/s the exact EBD lies at 860 m and the stepped one a grain before it."""
    bands = [{"upper": 18, "emergency": 70, "service": 70}, {"emergency": 70, "service": 70}]
    journey = Journey(plain(bands=bands, authority=stop(KM)), home_mm=300_000, behind=0, ahead=0)
    for mm in (859_999, 860_000, 860_001):
        journey.rest().read(14_000, est=mm)
    for mm in (982_142, 982_143):
        journey.rest().read(5_000, est=mm)
    return journey


def rounding_forward():
    """From a foot of 31.5 km/h forward through an upper speed of 27 km/h: a limit that is exactly a whole mm."""
    bands = [{"upper": 27, "emergency": 70, "service": 70}, {"emergency": 70, "service": 70}]
    journey = Journey(plain({"service_time": 40}, bands, authority=limit(KM, 24)), home_mm=300_000, behind=0, ahead=0)
    for v in (6_790, 7_070, 7_490, 7_500, 8_750, 6_667, 8_749):  # the first three: a whole mm
        for by in (-1, 0, 1):
            journey.rest().at("Loa", "d_EBI", v, by)
    return journey


def foot_at_an_upper_speed():
    """The foot speed, 60 km/h with 7.5, is no upper speed; of an LOA of 52 km/h a guidance curve's foot is one, and so on."""
    bands = [{"upper": 52, "emergency": 70, "normal": 40}, {"upper": 60, "emergency": 100, "normal": 90},
             {"emergency": 60, "normal": 50}]
    journey = Journey(plain(bands=bands, national={"guidance": True}, authority=limit(4 * KM, 52)))
    for v in (14_445, 15_000, 16_667, 18_000, 30_000):
        journey.rest().at("Loa", "d_P", v, 0).rest().at("Loa", "d_P", v, 1).rest().at("Loa", "d_EBI", v, 1)
    journey.record("limit", 4 * KM, 60)
    for v in (16_667, 18_000, 30_000):
        journey.rest().at("Loa", "d_P", v, 0).rest().at("Loa", "d_P", v, 1)
    return journey


def at_gradient_starts():
    """Ends at, one cell before and one behind where a gradient starts, at speeds whose ways end at one."""
    track = {"gradient": [{"start": 0, "grad": 0}, {"start": 3 * KM, "grad": -30}, {"start": 4 * KM, "grad": 20}]}
    journey = Journey(plain({"length": 1}, track=track, authority=stop(4 * KM)), behind=0, ahead=0)
    for end in (4 * KM - 1, 4 * KM, 4 * KM + 1, 3 * KM, 3 * KM + 1, 3 * KM + 2):
        journey.record("end", end, end, 0)
        for v in (141, 5_000, 20_000):
            journey.rest().at("Svl", "d_EBI", v, 0).at("Svl", "d_EBI", v, 1)
    journey.record("limit", 4 * KM, 60)
    for v in (16_667, 17_000, 18_000, 18_751, 20_000):
        journey.rest().read(v, max=3_999_000).read(v, max=4_000_000).read(v, max=4_010_000)
    return journey


def curves():
    all_speeds = (1, 4_999, 5_000, 5_001, 16_666, 16_667, 27_777, 27_778, 40_000, 69_444)
    yield "back-through-bands", "an EBD and an SBD through four bands, at and beside each upper speed", \
        through_bands(stop(5 * KM), all_speeds)
    yield "back-through-bands-and-gradients", "the same with gradients and areas", \
        through_bands(stop(5 * KM), all_speeds, track=STEEP | AREAS)
    yield "from-a-limit", "the EBD of an LOA back through bands, and forward at speeds below its foot", \
        through_bands(limit(4 * KM + 1_000, 70), (19_445, 20_000, 21_527, 21_528, 27_778, 40_000), {"guidance": True}, STEEP)
    yield "forward-through-bands", "from a foot of 87.5 km/h forward through an upper speed of 60 km/h, with T_bs", forward()
    yield "rounding", "a stepped place a grain before the exact one, at a front end that is exactly there", rounding()
    yield "rounding-forward", "the same going forward", rounding_forward()
    yield "foot-at-an-upper-speed", "guidance curves whose foot is an upper speed", foot_at_an_upper_speed()
    yield "at-gradient-starts", "ends and feet where gradients start, walked back and forward", at_gradient_starts()


def forward():
    bands = [{"upper": 60, "emergency": 90, "service": 80}, {"upper": 85, "emergency": 60}, {"emergency": 110}]
    track = {"gradient": [{"start": 0, "grad": 0}, {"start": 40_005 * 10, "grad": -20}, {"start": 40_100 * 10, "grad": 9}]}
    journey = Journey(plain({"service_time": 300, "length": 10}, bands, track=track, authority=limit(4 * KM, 10)))
    for speed in (10, 50, 60, 80):
        journey.record("limit", 4 * KM, speed)
        for v in sorted({speed * 2500 // 9 + more for more in (0, 1, 500, 1_000, 2_000, 2_100)}):
            journey.rest().at("Loa", "d_EBI", v, 0).at("Loa", "d_EBI", v, 1).at("Loa", "d_SBI", v, 1)
    return journey
