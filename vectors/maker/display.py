"""display/: limits as whole speeds, at the places and margins where the next one begins, and the target that counts."""
from sdm_evidence.model.speeds import dV_ebi, dV_sbi
from sdm_evidence.makers.toml_text import toml
from sdm_evidence.model.units import GRAINS_PER_MM, NOTCHES_PER_KM_H

from .curves import STEEP
from .plain import KM, Journey, limit, plain, stop
from .refusals import READ, text
from .version2 import UNUSED, WEAKER

DISPLAY = ["display"]
FAST = {"length": 100 * KM, "speed": [{"start": 0, "speed": 500}]}
TIMES = {"service_time": 30, "emergency_time": 20, "traction_cutoff_time": 10}
FALL = {"speed": [{"start": 0, "speed": 160}, {"start": 4 * KM, "speed": 72, "delayed": False}]}


def at_one_place(*parts, **more):
    """A journey whose three front ends lie at one place."""
    return Journey(plain(*parts, **more), behind=0, ahead=0)


def around_whole_speeds(journey, kind, name, speeds, a=0, u=0):
    """For each km/h the place where a limit has this speed: a millimetre before it, at it and a millimetre past it."""
    for kmh in speeds:
        v = kmh * 2500 // 9
        for by in (-1, 0, 1):
            journey.at(kind, name, v, by, a, u)
    return journey


def at_an_end():
    """Places before, at and past an EOA and an SvL."""
    # multiples of 18 km/h are whole mm/s, and their ways are whole mm
    speeds = (18, 36, 54, 72, 90, 108)
    yield "ebi-at-whole-speeds", "the EBI speed changes a millimetre past the place of a whole km/h, not at it", \
        around_whole_speeds(at_one_place(), "Svl", "d_EBI", speeds)
    yield "sbi-at-whole-speeds", "the same of the SBI, where the service brake takes 3 s", \
        around_whole_speeds(at_one_place(TIMES), "Svl", "d_SBI", speeds)
    yield "permitted-at-whole-speeds", "the same of the permitted speed", \
        around_whole_speeds(at_one_place(), "Eoa", "d_P", speeds)
    yield "by-acceleration-and-under-reading", "SBI and EBI speeds at which the train would still be faster by then", \
        around_whole_speeds(at_one_place(TIMES), "Svl", "d_EBI", (36, 90), a=60, u=500).read(20_000, a=-60)
    yield "own-speed", "one place at many speeds: the speeds that are shown stay", own_speeds()
    yield "end-passed", "an EOA that each front end passes: nothing is permitted, the distance is 0, and the EBI " \
        "speed knows nothing of the min safe front end", end_passed()
    yield "a-grain-before", "the stepped place decides, a grain before 63 km/h and at it", a_grain_before()
    without = Journey(plain({"service_brake": False, "emergency_time": 20}, [{"service": 60}]))
    yield "no-service-brake", "no service brake is in use: the SBI speed lies below the EBI speed all the same", \
        without.at("Eoa", "d_SBI", 20_000).at("Eoa", "d_SBI", 20_000, 1).at("Svl", "d_EBI", 20_000, 1)
    yield "guidance", "a guidance curve takes off the permitted speed, nothing of the others, and its target counts", \
        guided()


def own_speeds():
    journey = at_one_place(TIMES)
    for v in (0, 1, 10_000, 20_000, 44_444, 44_445, 47_000, 138_888):
        journey.read(v, est=4_500_000)
    return journey


def end_passed():
    journey = Journey(plain(authority=stop(5 * KM, 1_000)), behind=2_000, ahead=3_000)
    for front_end in ("max", "est", "min"):
        for by in (-1, 0, 1):
            journey.read(500, **{front_end: 5_000_000 + by})
    return journey.read(0, min=5_000_001).read(500, max=5_010_001).read(500, est=9_000_000)


def a_grain_before():
    """Of 0.7 m/s² 63 km/h need 218.75 m; the EBD of two bands that meet at 18 km/h has them a grain before that."""
    for_both = {"emergency": 70, "service": 70}
    journey = at_one_place(bands=[for_both | {"upper": 18}, for_both])
    for mm in (4_781_249, 4_781_250, 4_781_251):
        journey.read(0, est=mm)
    return journey


def guided():
    """The guidance curve of the EOA lies before the permitted speed of the SvL, whose SBI is the earlier one."""
    journey = Journey(plain({"service_time": 20, "emergency_time": 20}, [{"normal": 40}], {"guidance": True}, FALL))
    for v in (15_000, 20_000, 30_000):
        journey.around("Eoa", v, "d_P").around("Mrsp", v + 8_000, "d_P")
    return journey


def by_the_ceiling():
    """The ceiling's part in what is shown."""
    yield "margins", "ceilings at which the margins have their bends, each with its SBI and EBI speed", margins()
    yield "greatest", "up to 500 km/h, whatever lies above", greatest()
    yield "restrictions", "a restriction that comes and goes, as ceiling and as a fall", restrictions()
    yield "front-ends", "the ceiling counts for both safe front ends, each target for its own", front_ends()


def margins():
    journey = at_one_place({"max_speed": 500, "length": 1}, [{"emergency": 200, "service": 200}], track=FAST,
                           authority=stop(90 * KM))
    for number, speed in enumerate((1, 40, 109, 110, 111, 120, 139, 140, 141, 160, 209, 210, 211, 484, 485, 489, 490)):
        journey.record("restrict", number, 0, 10 * KM, speed, 0).read(0).record("revoke", number)
    return journey


def greatest():
    journey = at_one_place({"max_speed": 500}, [{"emergency": 400, "service": 300}], track=FAST,
                           authority=stop(50 * KM))
    for v in (0, 138_888):
        journey.read(v).at("Svl", "d_EBI", v, 0).at("Svl", "d_EBI", v, 1).at("Eoa", "d_SBI", v, 1)
    return journey


def restrictions():
    journey = Journey(plain({"length": 20_000}))
    journey.read(30_000).record("restrict", 7, 2 * KM, 3 * KM, 60, 1)
    journey.read(30_000, max=1_999_999).read(30_000, max=2_000_000)
    journey.read(30_000, est=3_100_000).read(30_000, min=3_199_999).read(30_000, min=3_200_000)
    journey.record("restrict", 8, 35 * KM // 10, 36 * KM // 10, 60, 0).read(20_000, est=3_300_000)
    return journey.record("revoke", 7).record("revoke", 8).read(20_000, est=3_300_000)


def front_ends():
    journey = Journey(plain(bands=[{"emergency": 90}], track=FALL), behind=9_000, ahead=20_000)
    journey.read(30_000, max=3_999_999).read(30_000, max=4_000_000)
    journey.read(30_000, est=4_000_000).read(30_000, min=4_000_000).read(19_000, est=4_500_000)
    for beyond in (0, 2_000, 20_000):
        journey.record("end", 5 * KM, 5 * KM + beyond, 0).read(19_000, est=4_500_000).read(19_000, max=4_990_000)
    return journey


def by_targets():
    """Which target is shown, and what each takes off the speeds."""
    yield "a-fall", "at a fall its speed with each margin, and before it what the curve allows", a_fall()
    yield "which-target", "of many targets the one whose limit is least, which is not always the nearest", \
        which_target()
    yield "equal-limits", "of targets with equal limits the first in order", equal_limits()
    yield "as-fast-as-the-train", "a target that is as fast as the train isn't shown, a slower one is", as_fast()
    yield "a-limit", "an LOA before and past it, with its margins; a limit of authority has no release speed", a_limit()
    yield "in-tenths", "data of version 2: gradients in tenths, an area without the special brake", in_tenths()
    yield "bands-and-gradients", "four bands and gradients under the train, towards an EOA and an SvL", \
        bands_and_gradients()


def a_fall():
    journey = at_one_place({"service_time": 20, "emergency_time": 10}, track=FALL)
    for margin in (lambda v: 0, dV_sbi, dV_ebi):
        v = (72 * NOTCHES_PER_KM_H + margin(72)) // 54
        journey.read(v, est=3_999_999).read(v + 1, est=3_999_999).read(v + 1, est=4_000_000)
    return around_whole_speeds(journey, "Mrsp", "d_EBI", (90, 108)).rest()


def which_target():
    profile = [{"start": start, "speed": speed, "delayed": False} for start, speed in (
        (0, 160), (3 * KM, 150), (35 * KM // 10, 120), (4 * KM, 40))]
    journey = at_one_place(TIMES, [{"service": 60}], track={"speed": profile}, authority=stop(45 * KM // 10, 10_000))
    for mm in (1_000_000, 2_500_000, 2_999_999, 3_000_000, 3_499_999, 3_999_999, 4_000_000):
        for v in (11_000, 20_000, 34_000, 42_000):
            journey.read(v, est=mm)
    return journey


def equal_limits():
    """EOA and SvL at one place; a fall at an LOA of its speed; both before and past the places."""
    journey = at_one_place(track=FALL, authority=limit(4 * KM, 72))
    journey.read(20_001, est=3_000_000).read(30_000, est=3_999_999).read(30_000, est=4_000_000)
    return journey.record("end", 5 * KM, 5 * KM, 0).read(10_000).read(10_000, est=4_999_999).read(10_000, est=5_000_001)


def as_fast():
    journey = at_one_place(track=FALL, authority=limit(45 * KM // 10, 54))
    for v in (14_999, 15_000, 15_001, 19_999, 20_000, 20_001):
        journey.read(v, est=3_999_000)
    return journey.record("end", 45 * KM // 10, 5 * KM, 0).read(0).read(1)


def a_limit():
    journey = at_one_place(TIMES, authority=limit(5 * KM, 72))
    for mm in (4_000_000, 4_999_999, 5_000_000, 5_000_001, 6_000_000):
        journey.read(30_000, est=mm).read(10_000, est=mm)
    return journey.record("end", 5 * KM, 5 * KM, 30).read(10_000).record("limit", 5 * KM, 30).read(10_000)


def in_tenths():
    gradients = {"gradient": [{"start": 0, "grad": 5}, {"start": 45 * KM // 10, "grad": -143}]}
    journey = Journey(plain({"length": 20_000, "rotating_mass": 12}, [WEAKER], track=UNUSED | gradients, version=2))
    return journey.read(0).read(20_000, est=4_400_000).read(20_000, est=4_900_000)


def bands_and_gradients():
    bands = [{"upper": 36, "emergency": 80}, {"upper": 72, "emergency": 110}, {"upper": 108, "service": 70},
             {"emergency": 90}]
    journey = Journey(plain(TIMES, bands, track=STEEP, authority=stop(5 * KM, 5_000)))
    for mm in (3_000_000, 3_800_000, 4_200_000, 4_600_000, 4_900_000, 4_990_000):
        journey.read(20_000, est=mm)
    return journey


def by_a_release_speed():
    """Release speeds that are handed in, and those that are calculated."""
    yield "release-speed", "before, at and past the start of release speed monitoring: the SBI speed is then that of the " \
        "ceiling, and lies above the EBI speed", released()
    yield "release-calculated", "a release speed that is calculated, and one of 0", calculated()


def released():
    journey = Journey(plain(authority=stop(5 * KM, 2_000, 36)))
    start = journey.release_start() // GRAINS_PER_MM
    for by in (-1, 0, 1):
        for v in (0, 10_000, 10_001):
            journey.read(v, max=start + by)
    journey.read(9_000, min=5_000_001).record("restrict", 1, 5 * KM, 6 * KM, 20, 0).read(9_000, max=4_990_000)
    journey.record("restrict", 2, 0, 6 * KM, 30, 0).read(9_000, max=4_990_000)
    return journey.record("end", 5 * KM, 5 * KM, 0).read(9_000, max=4_990_000)


def calculated():
    journey = Journey(plain({"emergency_time": 20}), behind=0, ahead=0)
    for trip in (5 * KM, 5 * KM + 1_500, 5 * KM + 4_000):
        journey.record("endcalc", 5 * KM, 5 * KM + 4_000, trip).read(5_000, est=4_900_000).read(5_000, est=4_999_000)
    return journey


def runs():
    """How a run ends, as of `run`."""
    yield "refused-midway", "the lines before a record that is refused", text(
        plain(), ["read,5,0,0,0,20000,0,0", "revoke,1", "read,5,0,0,0,20000,0,0"])
    yield "time-back", "a reading whose time goes back has no line", text(
        plain(), ["read,5,0,0,0,20000,0,0", "read,4,0,0,0,20000,0,0", READ])
    yield "no-readings", "records without a reading: no line", text(plain(), ["end,100,100,0", "limit,100,5"])
    yield "no-line", "no line divides the parts", toml(plain()).encode()
    yield "refused-opening", "slopes that are too weak", text(plain(bands=[{"emergency": 4}]))
    held = Journey(plain()).read(20_000).read(47_000).read(20_000).read(20_000, est=4_900_000).read(20_000)
    yield "held", "what was commanded before changes nothing", held
    far_off = at_one_place(TIMES).read(30_000, est=-10_000_000).read(30_000, est=110_000_000).read(0, est=110_000_000)
    yield "places-far-off", "places at the ends of their range", far_off


def vectors():
    for makers in (at_an_end, by_the_ceiling, by_targets, by_a_release_speed, runs):
        for name, shows, made in makers():
            yield name, shows, DISPLAY, made
