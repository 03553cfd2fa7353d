"""calculated/ and a part of records/: authorities whose release speed is calculated, by `endcalc`.

What a release speed is worth shows where release speed monitoring starts, and at the speeds on both sides of it there.
"""
from sdm_evidence.model.units import GRAINS_PER_MM, NOTCHES_PER_KM_H

from .curves import BANDS, STEEP
from .plain import KM, Journey, limit, plain, speeds_around, stop
from .refusals import READ, text
from .ten_bands import TEN_BANDS
from .version2 import WEAKER

EOA, SVL = 5 * KM, 505 * KM // 100


def show(journey):
    """Readings that tell the release speed: on both sides of its start and of itself; of none, at the ends' limits."""
    v = journey.supervisor.authority.release
    if v == 0:
        return journey.rest().at("Eoa", "d_SBI", 1_000, 0).at("Eoa", "d_SBI", 1_000, 1).at("Svl", "d_EBI", 1_000, 1)
    start = journey.release_start() // GRAINS_PER_MM
    for by in (0, 1):
        for speed in speeds_around(v * NOTCHES_PER_KM_H):
            if speed <= 138_888:
                journey.rest().read(speed, max=start + by)
    return journey


def over(trips, train=(), bands=None, track=(), eoa=EOA, svl=SVL, version=1):
    """A journey with one `endcalc` after the other, each with another trip place; the EOA is at it, or before it."""
    journey = Journey(plain(train, bands, track=track, version=version))
    for trip in trips:
        show(journey.record("endcalc", min(eoa, trip), svl, trip))
    return journey


def by_times():
    """T_be is the emergency brake's whole build-up time, whatever part of it T_traction is."""
    trips = (EOA, EOA + 1_000, SVL - 1)
    for name, shows, train in [
        ("build-up-time", "a build-up time of 2 s", {"emergency_time": 20}),
        ("build-up-time-beside-a-cut-off", "the same where T_traction is 1.5 s", {
            "emergency_time": 20, "traction_cutoff_time": 15}),
        ("build-up-time-within-a-cut-off", "the same where T_traction is 4 s, longer than it", {
            "emergency_time": 20, "traction_cutoff_time": 40}),
        ("build-up-time-with-an-interface", "the same where a cut-off interface makes T_traction 0", {
            "emergency_time": 20, "traction_cutoff_time": 15, "traction_cutoff_interface": True, "service_time": 40}),
        ("other-times", "no build-up time: those of traction and service brake count nothing", {
            "traction_cutoff_time": 30, "service_time": 50}),
        ("greatest-build-up-time", "a build-up time of 30 s", {"emergency_time": 300}),
    ]:
        yield name, shows, over(trips, train)


def by_slopes():
    """A_safe, by all that it is made of; the service brake isn't asked."""
    trips = (EOA, EOA + 2_000, EOA + 4_000)
    weak = {"emergency": 60, "service": 90}
    yield "weak-emergency-brake", "the emergency brake is the weaker one", over(trips, bands=[weak])
    yield "weak-service-brake", "the service brake is the weaker one, and isn't asked", over(
        trips, bands=[{"emergency": 90, "service": 60}])
    yield "wet", "Kdry 0.85, Kwet 0.6", over(trips, bands=[{"kdry": 850, "kwet": 600}])
    yield "on-gradients", "gradients under a train of 100 m, a mass of 12 percent", over(
        [48 * KM // 10, 49 * KM // 10, EOA, EOA + 3_000], {"rotating_mass": 12}, track=STEEP)
    yield "on-reduced-adhesion", "an area of reduced adhesion that the rear end leaves between trip and SvL", over(
        trips, track={"adhesion": [{"start": EOA - 9_000, "end": EOA - 7_000}]})
    yield "without-special-brake", "an area without the special brake that the rear end leaves before the EOA", over(
        [49 * KM // 10, EOA - 1_000, EOA], {"length": 20_000}, [WEAKER],
        {"no_special": [{"start": 47 * KM // 10, "end": 48 * KM // 10}]}, version=2)


def at_the_edges():
    """Trip places at which a speed just fits, and the least and the greatest speed."""
    yield "just-fits", "10 m/s need 50 m: a centimetre to either side", over(
        [SVL - way for way in (5_001, 5_000, 4_999)])
    thirds = [{"emergency": 70, "upper": 18}, {"emergency": 70}]
    trips = [SVL - way for way in (21_876, 21_875, 21_874)]
    yield "a-grain-before-it-fits", "17.5 m/s need 218.75 m, and the stepped place lies a grain before that", over(
        trips, bands=thirds)
    yield "no-grain-before-it-fits", "the same with one band: nothing is rounded", over(trips, bands=thirds[1:])
    yield "through-bands", "an EBD through four bands", over(
        [SVL - way for way in (500, 2_500, 40_000, 90_000)], {"max_speed": 250}, BANDS)
    yield "through-ten-bands", "an EBD through ten bands", over(
        [SVL - way for way in (20, 3_000, 100_000)], {"max_speed": 250}, TEN_BANDS, version=2)
    yield "least", "trip at the SvL and up to 4 cm before it: none, and 1 km/h from 3.86 cm on", over(
        [SVL - way for way in (0, 1, 3, 4)])
    fast = {"max_speed": 500}
    track = {"length": 50 * KM, "speed": [{"start": 0, "speed": 500}]}
    yield "greatest", "500 km/h need 9645.06 m; more way gives no more", over(
        [40 * KM - way for way in (964_506, 964_507, 20 * KM)], fast, track=track, eoa=20 * KM, svl=40 * KM)
    yield "at-the-origin", "an SvL at 0 and at 5 m: all places of the record are 0 or near it", at_the_origin()


def at_the_origin():
    journey = Journey(plain(), home_mm=-2_000_000)
    for eoa, svl, trip in ((0, 0, 0), (0, 500, 0), (0, 500, 500), (10, 500, 11)):
        show(journey.record("endcalc", eoa, svl, trip))
    return journey


def among_others():
    """Authorities before and after it, what is held, restrictions, and a min safe front end past the EOA."""
    journey = Journey(plain({"emergency_time": 10}, authority=stop(EOA, 5_000, 60)))
    show(show(journey).record("endcalc", EOA, SVL, EOA + 1_500))
    show(journey.record("endcalc", EOA, SVL, SVL))         # none, where the one before had one
    show(journey.record("end", EOA, SVL, 18))
    journey.record("limit", 6 * KM, 80).read(20_000, est=4_990_000)
    show(journey.record("endcalc", EOA, SVL, EOA))
    journey.rest().read(47_000).record("endcalc", EOA, SVL, EOA + 1).read(45_000)      # what is held stays held
    show(journey.record("restrict", 1, EOA - 1_000, SVL, 20, 0).record("endcalc", EOA, SVL, EOA + 1_000))
    for by in (-1, 0, 1):
        journey.rest().read(500, min=10 * EOA + by)
    return journey


def vectors():
    yield "by-the-brake", "no times: trip at the EOA, past it, and before the SvL", over(
        (EOA, EOA + 1, EOA + 1_000, SVL - 500))
    yield from by_times()
    yield from by_slopes()
    yield from at_the_edges()
    yield "among-others", "after and before other records; commands that are held; past the EOA", among_others()
    yield "at-an-end", "EOA, trip and SvL at one place, which is the track's end", over(
        [5 * KM], track={"length": 5 * KM}, svl=5 * KM)
    yield "after-a-limit", "the first authority was a limit", show(
        Journey(plain(authority=limit(4 * KM, 60))).record("endcalc", EOA, SVL, EOA + 1_000))


REFUSED = [
    ("endcalc-field-count", "a field too few", f"endcalc,{EOA},{SVL}"),
    ("endcalc-fields-of-end-and-trip", "a field too many", f"endcalc,{EOA},{SVL},0,{EOA}"),
    ("endcalc-in-capitals", "a kind in capitals", f"ENDCALC,{EOA},{SVL},{EOA}"),
    ("endcalc-not-a-number", "an empty trip place", f"endcalc,{EOA},{SVL},"),
    ("endcalc-eoa-above", "an EOA above its range", "endcalc,10000001,10000001,10000001"),
    ("endcalc-svl-below", "an SvL below 0", "endcalc,0,-1,0"),
    ("endcalc-trip-above", "a trip place above its range", f"endcalc,{EOA},{SVL},10000001"),
    ("endcalc-trip-below", "a trip place below 0", "endcalc,0,0,-1"),
    ("endcalc-trip-as-great", "the greatest trip place is in its range, and past the SvL",
     f"endcalc,{EOA},{SVL},10000000"),
    ("endcalc-form-first", "the form of the trip place comes before the order of the ends", "endcalc,1,0,x"),
    ("endcalc-before-end", "an SvL before the EOA, the trip place at the EOA", f"endcalc,{EOA},{EOA - 1},{EOA}"),
    ("endcalc-before-end-first", "the order of the ends comes before the trip place", f"endcalc,{EOA},{EOA - 1},0"),
    ("endcalc-beyond-track", "an SvL past the track's end, the trip place at the EOA",
     f"endcalc,{EOA},{10 * KM + 1},{EOA}"),
    ("endcalc-beyond-track-first", "an SvL past the track's end comes before the trip place",
     f"endcalc,{EOA},{10 * KM + 1},0"),
    ("bad-trip-before-the-eoa", "a trip place a centimetre before the EOA", f"endcalc,{EOA},{SVL},{EOA - 1}"),
    ("bad-trip-past-the-svl", "a trip place a centimetre past the SvL", f"endcalc,{EOA},{SVL},{SVL + 1}"),
    ("bad-trip-at-an-end", "a trip place before both ends, which are one", f"endcalc,{EOA},{EOA},{EOA - 1}"),
]


def records():
    for name, shows, line in REFUSED:
        yield name, shows, text(plain(), ["read,0,100,100,100,20000,0,0", line, READ])
    document = plain()
    document["authority"] = {"kind": "endcalc", "eoa": EOA, "svl": SVL, "trip": EOA}
    yield "endcalc-in-the-data-part", "the first authority has no such kind", text(document)
