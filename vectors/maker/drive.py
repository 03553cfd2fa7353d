"""drive/: trains that a number drives, as data parts: what they are read with, how they brake and when, and what can't be
driven."""
from sdm_evidence.model.data import REFUSED
from sdm_evidence.makers.toml_text import toml

from .curves import AREAS, STEEP
from .plain import KM, limit, plain, stop
from .refusals import changed
from .ten_bands import TEN_BANDS
from .version2 import TENTHS, UNUSED, WEAKER

NEAR = 30_000  # cm
BUILD_UP = {"emergency_time": 20}
UNKNOWN_MASS = (("train", "rotating_mass"), REFUSED)
WEAK, SHORT = (("train", "band", 0, "emergency"), 4), (("train", "emergency_time"), 4)


def driven(train=(), bands=None, national=(), track=(), authority=None, version=1):
    """The plain train with a build-up time of 2 s, to an EOA at 300 m and an SvL 10 m beyond it."""
    return plain(BUILD_UP | dict(train), bands, national, track, authority or stop(NEAR, 1_000), version)


def numbers():
    """What a number makes of the plain train."""
    for name, shows, number, cycles, document in [
        ("three-steps", "a step at standstill and two of driving, worked by hand", 7, 3, plain(BUILD_UP, authority=stop(KM))),
        ("one-step", "one step", 7, 1, driven()),
        ("least-number", "the number 0, and steps that end between two stops", 0, 178, driven()),
        ("greatest-number", "the number 65,535", 65_535, 300, driven()),
        ("stops", "stops and starts before an SvL", 7, 400, driven()),
        ("stands", "a train that isn't driven yet: the least distance is that of the start", 7, 1, driven(authority=stop(0, 3))),
        ("an-end-where-it-stands", "EOA and SvL at 0", 7, 1000, driven(authority=stop(0))),
        ("near-0", "EOA and SvL at 4 m, within the error of the odometer", 9, 3000, driven(authority=stop(400))),
        ("end-passed", "the min safe front end past the EOA, far before the SvL", 5, 600, driven(authority=stop(10_000, KM))),
        ("no-service-brake", "no service brake is in use: the emergency brake in its place", 3, 600, driven({"service_brake": False})),
        ("faster-than-permitted", "over the ceiling with each start", 11, 700, driven({"max_speed": 20}, authority=stop(2 * KM))),
        ("early-release", "an emergency brake that is released before standstill", 11, 700,
         driven({"max_speed": 20}, national={"early_release": True}, authority=stop(2 * KM))),
        ("early-release-at-a-curve", "the same before a fall and before an SvL", 23, 900,
         driven({"max_speed": 60, "emergency_time": 60}, national={"early_release": True}, authority=stop(KM, 5_000),
                track={"speed": [{"start": 0, "speed": 60}, {"start": 40_000, "speed": 30}]})),
        ("falls", "falls that the train doesn't slow down for", 1, 900, driven(authority=stop(2 * KM), track={
            "speed": [{"start": 0, "speed": 60}, {"start": 50_000, "speed": 25}, {"start": KM, "speed": 40, "delayed": False}]})),
        ("greatest-speed", "up to 138,888 mm/s", 2_097, 2_900, driven(
            {"max_speed": 500}, [{"emergency": 400, "service": 300}], track={
                "length": 100 * KM, "speed": [{"start": 0, "speed": 500}]}, authority=stop(100 * KM))),
    ]:
        yield name, shows, number, cycles, document


def reading():
    """How its odometer errs."""
    yield "inhibited", "the under-reading is inhibited: the speed is rounded up", 7, 500, driven(national={"inhibit_under_reading": True})
    yield "inhibited-over-the-ceiling", "the same over a ceiling", 11, 700, driven(
        {"max_speed": 20}, national={"inhibit_under_reading": True}, authority=stop(2 * KM))
    thirds = ({"max_speed": 20, "rotating_mass": 7}, [{"emergency": 70, "kdry": 333}])
    yield "thirds", "speeds that are no whole mm/s, once the brake was released early: rounded down", 2, 1_500, driven(
        *thirds, {"early_release": True}, authority=stop(KM))
    yield "thirds-inhibited", "the same where the under-reading is inhibited: rounded up", 0, 1_500, driven(
        *thirds, {"early_release": True, "inhibit_under_reading": True}, authority=stop(KM))
    yield "at-the-ebi", "a max safe front end at the EBI to the grain is within the SvL", 329, 200, driven(
        {"emergency_time": 10}, [{"emergency": 5, "service": 5, "normal": 5}], {"inhibit_under_reading": True}, authority=stop(2_000))


def times():
    """From when on the brake works."""
    for name, shows, number, cycles, train in [
        ("shortest-build-up", "a build-up time of 0.5 s", 7, 500, {"emergency_time": 5}),
        ("longest-build-up", "a build-up time of 30 s", 7, 500, {"emergency_time": 300}),
        ("cut-off-before", "a traction cut-off that is a part of the build-up time", 7, 500,
         {"emergency_time": 50, "traction_cutoff_time": 30}),
        ("cut-off-longer", "a traction cut-off that is longer than the build-up time", 7, 500,
         {"emergency_time": 10, "traction_cutoff_time": 70}),
        ("cut-off-by-the-warning", "with an interface the warning's time counts", 7, 500,
         {"emergency_time": 10, "traction_cutoff_time": 70, "traction_cutoff_interface": True, "service_time": 25}),
        ("no-whole-steps", "an onset between two readings", 7, 500, {"emergency_time": 13}),
    ]:
        yield name, shows, number, cycles, driven(train)


STEEPER = {"gradient": [{"start": 0, "grad": 0}, {"start": 20_000, "grad": -30}, {"start": 28_000, "grad": 40}, {"start": 29_400, "grad": -10}]}
REDUCED = {"adhesion": [{"start": 24_000, "end": 27_500}, {"start": 29_000, "end": 29_900}]}


def slopes():
    """How strongly it is braked: by the greatest slope of the cells ahead, of any band."""
    short = {"length": 500}
    yield "two-bands", "bands of which the upper one is the stronger", 7, 500, driven(
        {}, [{"upper": 12, "emergency": 60}, {"emergency": 110}])
    yield "two-bands-weaker-above", "bands of which the lower one is the stronger", 7, 500, driven(
        {}, [{"upper": 12, "emergency": 110}, {"emergency": 60}])
    yield "ten-bands", "ten bands", 33, 700, driven({}, TEN_BANDS, authority=stop(KM, 2_000))
    yield "gradients", "gradients that begin within a ds of braking", 7, 500, driven(short, track=STEEPER)
    yield "gradients-at-speed", "the same from a higher speed", 8, 900, driven(short | {"emergency_time": 8}, track={
        "gradient": [{"start": start, "grad": 40 * (start // 150 % 2) - 20} for start in range(0, 60_000, 150)]}, authority=stop(59_000, 500))
    yield "unknown-mass", "a rotating mass that isn't known", 7, 500, changed(driven(short, track=STEEPER), [UNKNOWN_MASS])
    yield "reduced-adhesion", "areas of reduced adhesion", 7, 500, driven(short, track=REDUCED)
    yield "special-brake", "areas in which a special brake isn't used", 7, 500, driven(
        short, [WEAKER], track={"no_special": REDUCED["adhesion"]}, version=2)
    yield "tenths", "gradients in tenths, and areas, far down the track", 41, 1_500, driven(
        {}, [{"upper": 30, "emergency": 90}, WEAKER], track=TENTHS | UNUSED, authority=stop(KM), version=2)
    yield "steep", "bands, gradients and areas together", 21, 1_500, driven(
        {}, [{"upper": 30, "emergency": 110}, {"upper": 60}, {"emergency": 90}], track=STEEP | AREAS, authority=stop(2 * KM, 500))


def to_the_last_cycle():
    """Data of a real kind, as long as a drive may be."""
    yield "hundred-thousand", "100,000 steps of a passenger train", 7, 100_000, changed(plain(
        {"length": 20_000, "traction_cutoff_time": 20, "traction_cutoff_interface": True,
         "emergency_time": 30, "service_time": 40},
        [{"upper": 100, "emergency": 120, "service": 90, "normal": 60, "kdry": 850, "kwet": 950},
         {"emergency": 100, "service": 80, "normal": 50, "kdry": 850, "kwet": 950}], {"avadh": 0},
        {"length": 6 * KM, "gradient": [{"start": 0, "grad": 0}, {"start": 2 * KM, "grad": -5}, {"start": 4 * KM, "grad": 0}]},
        stop(5 * KM, 5_000)), [UNKNOWN_MASS])


TO_A_LIMIT = (("authority",), limit(NEAR, 30))
RELEASE = (("authority", "release"), 1)


def refused():
    """What can't be driven, in its order, before what the opening refuses and after what the data part breaks."""
    for name, shows, *changes in [
        ("no-stop", "an authority to a limit", TO_A_LIMIT),
        ("release-speed", "a release speed", RELEASE),
        ("emergency-time", "a build-up time of 0.4 s", SHORT),
        ("no-stop-first", "an authority to a limit, before a build-up time and a slope", TO_A_LIMIT, SHORT, WEAK),
        ("release-speed-first", "a release speed, before these", RELEASE, SHORT, WEAK),
        ("emergency-time-first", "a build-up time, before a slope and the authority", SHORT, WEAK, (("authority", "svl"), NEAR - 1)),
        ("cut-off-is-no-build-up", "a build-up time of 0.4 s beside a traction cut-off of 5 s", SHORT, (("train", "traction_cutoff_time"), 50)),
        ("too-weak", "a slope that is too weak", WEAK),
        ("svl-before-eoa", "an SvL before the EOA", (("authority", "svl"), NEAR - 1)),
        ("beyond-the-track", "an SvL past the track's end", (("authority", "svl"), 10 * KM + 1)),
        ("bad-data-first", "a number out of its range, before what can't be driven", TO_A_LIMIT, SHORT, (("train", "length"), 0)),
        ("missing", "a key is missing", (("authority", "eoa"), REFUSED)),
    ]:
        yield name, shows, changed(driven(), changes)


def texts():
    """Other texts and other words."""
    text = toml(driven())
    yield "release-of-0", "a release speed of 0 is none", ["7", "20"], toml(driven(authority=stop(NEAR, 0, 0)))
    yield "dividing-line", "a dividing line is no TOML", ["7", "3"], text + "%%\n"
    yield "empty", "an input of no bytes", ["7", "3"], ""
    yield "byte-order-mark", "a byte order mark at the start is passed over", ["7", "20"], "\ufeff" + text
    yield "leading-zeros", "numbers with leading zeros, and -0", ["-0", "007"], text


def vectors():
    for make in (numbers, reading, times, slopes, to_the_last_cycle):
        for name, shows, number, cycles, document in make():
            yield name, shows, ["drive", str(number), str(cycles)], toml(document).encode()
    for name, shows, document in refused():
        yield name, shows, ["drive", "7", "3"], toml(document).encode()
    for name, shows, words, text in texts():
        yield name, shows, ["drive", *words], text.encode()
