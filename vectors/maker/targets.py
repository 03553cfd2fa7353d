"""targets/: each kind of target, each of its limits, and which targets there are."""
from sdm_evidence.model.speeds import dV_ebi, dV_sbi, dV_warning
from sdm_evidence.model.units import NOTCHES_PER_KM_H

from .plain import KM, Journey, limit, plain, speeds_around, stop

SLOW_SERVICE = [{"service": 50, "normal": 40}]
SLOW_EMERGENCY = [{"emergency": 50}]
TIMES = {"service_time": 30, "emergency_time": 20, "traction_cutoff_time": 10}
FALL = {"speed": [{"start": 0, "speed": 160}, {"start": 4 * KM, "speed": 72}]}


def kinds():
    """The four kinds of target, each with the data parts in which its own limits come first, and speeds."""
    yield "eoa", "Eoa", SLOW_SERVICE, {}, stop(5 * KM, 20_000), [20_000, 36_000]
    yield "svl", "Svl", SLOW_EMERGENCY, {}, stop(5 * KM, 5_000), [20_000, 36_000]
    yield "mrsp", "Mrsp", [{}], FALL, stop(9 * KM), [30_000, 40_000]
    yield "loa", "Loa", [{}], {}, limit(5 * KM, 72), [30_000, 40_000]


def limits(kind, bands, track, authority, speeds, train=(), national=()):
    journey = Journey(plain(train, bands, national, track, authority))
    for v in speeds:
        journey.around(kind, v)
    return journey


def passed_speeds(kind, track, authority, place_mm):
    """A front end past all limits: the speed alone decides, by the target's speed with each margin."""
    journey = Journey(plain(TIMES | {"max_speed": 300}, track=track, authority=authority))
    for margin in (lambda v: 0, dV_warning, dV_sbi, dV_ebi):
        for v in speeds_around(72 * NOTCHES_PER_KM_H + margin(72)) + speeds_around(78 * NOTCHES_PER_KM_H + margin(78)):
            journey.rest().read(v, max=place_mm)
    return journey


def passed_stop(front_end):
    """An EOA that one front end after the other passes, moving, slow and standing."""
    journey = Journey(plain(authority=stop(5 * KM, 1_000)), behind=2_000, ahead=3_000)
    for v in (0, 1, 500):
        for by in (-1, 0, 1):
            journey.rest().read(v, **{front_end: 5_000_000 + by})
    return journey


def which_falls():
    """Falls before, at and behind the EOA, at the max safe front end, and by restrictions that come and go."""
    speeds = [160, 150, 100, 120, 80, 30]
    starts = [0, 2 * KM, 3 * KM, 35 * KM // 10, 5 * KM, 5 * KM + 1]
    profile = [{"start": start, "speed": speed, "delayed": False} for start, speed in zip(starts, speeds)]
    journey = Journey(plain(TIMES, track={"speed": profile}, authority=stop(5 * KM, 30_000)), behind=0, ahead=20_000)
    for mm in (1_999_999, 2_000_000, 2_999_999, 3_000_000, 3_500_000, 4_999_900, 4_999_999, 5_000_000):
        for v in (8_000, 8_334, 22_222, 22_223, 30_000):
            journey.read(v, max=mm)
        journey.rest()
    journey.record("end", 5 * KM + 1, 6 * KM, 0).read(20_000, max=4_900_000).read(8_334, max=4_999_999)
    journey.record("limit", 5 * KM, 40).read(12_000, max=4_990_000).record("limit", 5 * KM - 1, 40).read(23_000, max=4_990_000)
    journey.rest().record("restrict", 7, 40 * KM // 10, 42 * KM // 10, 50, 0).read(25_000, max=3_950_000)
    return journey.record("revoke", 7).read(25_000, max=3_950_000).record("end", 0, 0, 0).read(10, max=3_950_000)


def equal_speeds(kind, track, authority):
    """The columns have a target that is exactly as fast as the train, and none that is faster."""
    journey = Journey(plain(TIMES, track=track, authority=authority))
    for v in (19_999, 20_000, 20_001, 0, 22_084, 22_083):
        journey.at(kind, "d_EBI", v, -200_000).at(kind, "d_EBI", v).at(kind, "d_EBI", v, 1).rest()
    return journey


def covered_by_speed(kind, track, authority):
    """V_bec at the foot speed, a mm/s below and above, with the front end before and past d_EBI."""
    # 78 km/h with its margin is 23,750 mm/s
    journey = Journey(plain(TIMES, track=track, authority=authority))
    for v in (23_749, 23_750, 23_751, 23_250, 23_251):
        under = 500 if v < 23_700 else 0
        for by in (0, 1, 30_000):
            journey.rest().at(kind, "d_EBI", v, by, u=under)
    return journey


def faster_targets(kind, track, authority):
    """A target of 100 km/h ahead of a slower train: its EBI by V_target and what the train gains until it brakes."""
    journey = Journey(plain({"traction_cutoff_time": 30, "emergency_time": 130}, track=track, authority=authority))
    for v, a in ((20_000, 40), (20_000, 25), (26_000, 41), (27_778, 40), (20_000, 15)):
        for by in (0, 1):
            journey.rest().at(kind, "d_EBI", v, by, a=a)
    return journey


def guidance(kind, bands, track, authority, speeds, permitted=True):
    return limits(kind, bands, track, authority, speeds, {"service_time": 20}, {"guidance": permitted})


def margins_of_limits():
    """Targets of 18 speeds: their feet, and the speeds at which each margin is passed behind the LOA."""
    journey = Journey(plain({"max_speed": 500, "service_time": 10}, [{"emergency": 200, "service": 200}],
                            track={"length": 100 * KM, "speed": [{"start": 0, "speed": 500}]}, authority=limit(50 * KM, 72)))
    for speed in (1, 50, 105, 109, 110, 111, 125, 139, 140, 141, 170, 209, 210, 211, 300):
        journey.record("limit", 50 * KM, speed)
        for margin in (dV_warning, dV_sbi, dV_ebi):
            for v in speeds_around(speed * NOTCHES_PER_KM_H + margin(speed)):
                journey.rest().read(v, max=51_000_000)
        journey.rest().read(speed * 2500 // 9 + 15_000, max=48_000_000)
    return journey


def vectors():
    for name, kind, bands, track, authority, speeds in kinds():
        yield f"{name}-limits", f"I, P, W, SBI and EBI of {kind}, each a millimetre before, at and past", \
            limits(kind, bands, track, authority, speeds) if kind != "Eoa" else eoa_limits(bands, track, authority, speeds)
        yield f"{name}-limits-with-times", "the same with build-up and cut-off times, acceleration and under-reading", \
            with_times(kind, bands, track, authority, speeds)
        weak = [bands[0] | {"normal": 40}]
        yield f"{name}-guidance", f"a guidance curve of {kind} where it has one, P and I by it, W and SBI not", \
            around_p(guidance(kind, weak, track, authority, []), kind, speeds)
        strong = [bands[0] | {"normal": 400}]
        yield f"{name}-guidance-later", "a guidance curve that is later than P without it changes nothing", \
            around_p(guidance(kind, strong, track, authority, []), kind, speeds)
    slow = {"speed": [{"start": 0, "speed": 160}, {"start": 4 * KM, "speed": 72, "delayed": False}]}
    slower = {"speed": [{"start": 0, "speed": 160}, {"start": 4 * KM, "speed": 78, "delayed": False}]}
    yield "mrsp-speeds", "72 km/h a millimetre before its fall: each margin over a target, on both sides", \
        passed_speeds("Mrsp", slow, stop(9 * KM), 3_999_999)
    yield "loa-speeds", "an LOA of 78 km/h long passed: each margin over a target, on both sides", \
        passed_speeds("Loa", {}, limit(2 * KM - 1, 78), 6_000_000)
    yield "margins-of-targets", "the margins of 15 target speeds behind the LOA, and the foot of each before it", margins_of_limits()
    for front_end in ("min", "est", "max"):
        yield f"end-passed-by-{front_end}", f"the {front_end} front end a millimetre before, at and past the EOA", passed_stop(front_end)
    yield "which-falls", "falls before, at and behind the EOA and the max safe front end; by restrictions", which_falls()
    yield "mrsp-equal-speed", "a fall to 72 km/h is in the columns at 20 m/s and not below", equal_speeds("Mrsp", slow, stop(9 * KM))
    yield "loa-equal-speed", "an LOA of 72 km/h is in the columns at 20 m/s and not below", equal_speeds("Loa", {}, limit(5 * KM, 72))
    fast = {"speed": [{"start": 0, "speed": 160}, {"start": 4 * KM, "speed": 100}]}
    yield "mrsp-faster", "a fall to more than the train's speed is covered or not, and in no column", faster_targets("Mrsp", fast, stop(9 * KM))
    yield "loa-faster", "the same of an LOA", faster_targets("Loa", {}, limit(5 * KM, 100))
    yield "mrsp-covered-by-speed", "covered by V_bec at the foot speed, before and past the EBI", \
        covered_by_speed("Mrsp", slower, stop(9 * KM))
    yield "loa-covered-by-speed", "the same of an LOA", covered_by_speed("Loa", {}, limit(5 * KM, 78))


def eoa_limits(bands, track, authority, speeds):
    """An EOA has no EBI."""
    journey = Journey(plain((), bands, (), track, authority))
    for v in speeds:
        journey.around("Eoa", v, "d_I d_P d_W d_SBI")
    return journey


def names_of(kind):
    return "d_I d_P d_W d_SBI" + ("" if kind == "Eoa" else " d_EBI")


def with_times(kind, bands, track, authority, speeds):
    journey = Journey(plain(TIMES, bands, (), track, authority))
    return journey.around(kind, speeds[0], names_of(kind)).around(kind, speeds[0], names_of(kind), a=60, u=300)


def around_p(journey, kind, speeds):
    for v in speeds:
        journey.around(kind, v, "d_I d_P d_W d_SBI")
    return journey
