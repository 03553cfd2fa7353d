"""commands/, times/ and release/: what is held and released; the times of the brakes; release speed monitoring."""
from sdm_evidence.model.units import GRAINS_PER_MM, NOTCHES_PER_KM_H

from .plain import KM, Journey, plain, speeds_around, stop

# The plain train at 20 m/s towards an EOA at 5 km: P at 4720 m, W at 4760 m, SBI and EBI at 4800 m.
HELD = {"nothing": [], "status O": [(20_000, 4_730_000)], "the traction cut-off": [(20_000, 4_770_000)],
        "all three commands": [(20_000, 4_900_000)],
        "the service brake alone": [(47_000, 2_000_000)]}        # over the ceiling with dV_sbi, below dV_ebi
NEXT = [("before P", 20_000, 4_719_999), ("at P", 20_000, 4_720_000), ("past P", 20_000, 4_720_001),
        ("at W", 20_000, 4_760_000), ("past W", 20_000, 4_760_001), ("at SBI", 20_000, 4_800_000),
        ("past SBI", 20_000, 4_800_001), ("standing", 0, 4_900_000), ("slow", 1, 4_720_000),
        ("at the ceiling", 44_444, 2_000_000), ("over the ceiling", 44_445, 2_000_000)]


def held(national=(), train=()):
    """Each class of a reading after each state that was held before it."""
    journey = Journey(plain(train, national=national), behind=0, ahead=0)
    for before in HELD.values():
        for _, v, mm in NEXT:
            journey.rest()
            for speed, place in before:
                journey.read(speed, est=place)
            journey.read(v, est=mm)
    return journey


def sequence(national=()):
    """A whole fall and rise of triggers: through P, W and SBI and back, and once more from standstill."""
    journey = Journey(plain(national=national), behind=0, ahead=0)
    for mm in (4_500_000, 4_700_000, 4_730_000, 4_770_000, 4_730_000, 4_719_000, 4_730_000, 4_800_001, 4_770_000, 4_730_000,
               4_720_000, 4_500_000, 4_730_000, 4_810_000):
        journey.read(20_000, est=mm)
    journey.read(0, est=4_810_000).read(500, est=4_810_000).read(20_000, est=4_810_000)
    return journey.record("end", 9 * KM, 9 * KM, 0).read(20_000, est=4_810_000).read(46_000, est=4_900_000).read(
        46_600, est=4_950_000).read(44_445, est=5_000_000).read(44_444, est=5_000_000)


def after_a_record():
    """No record but a reading changes what is held; the next reading decides by what is then in force."""
    journey = Journey(plain(), behind=0, ahead=0)
    journey.read(20_000, est=4_770_000).record("end", 9 * KM, 9 * KM, 0).read(20_000, est=4_770_000)
    journey.record("restrict", 1, 0, 9 * KM, 70, 0).read(20_000, est=4_780_000).record("revoke", 1).read(20_000, est=4_780_000)
    journey.record("end", 48 * KM // 10, 5 * KM, 0).read(20_000, est=4_790_000).record("limit", 9 * KM, 50)
    journey.read(20_000, est=4_800_000).read(20_000, est=4_800_000, ds=0)
    journey.record("end", 47 * KM // 10, 5 * KM, 0).read(0, est=4_800_000).record("end", 48 * KM // 10, 5 * KM, 0)
    return journey.read(1, est=4_799_000).read(0, est=4_799_000)


TRAINS = {
    "without-interface": ("the cut-off time counts in full without an interface", {"traction_cutoff_time": 73}),
    "with-interface": ("with an interface T_warning and T_bs are taken off the cut-off time",
                       {"traction_cutoff_time": 73, "traction_cutoff_interface": True, "service_time": 20}),
    "within-the-warning": ("a cut-off time that T_warning and T_bs outlast counts as 0",
                           {"traction_cutoff_time": 30, "traction_cutoff_interface": True, "service_time": 20}),
    "emergency-first": ("T_berem is 0 where the traction is cut off later than the brake works",
                        {"traction_cutoff_time": 50, "emergency_time": 40}),
    "emergency-last": ("T_berem is the rest of the emergency brake's time", {"traction_cutoff_time": 15, "emergency_time": 45}),
    "long-build-up": ("T_indication by 0.8 of a T_bs above 6.25 s", {"service_time": 65, "emergency_time": 20}),
    "short-build-up": ("T_indication by 5 s", {"service_time": 60, "emergency_time": 20}),
}


def times(train, national=(), kind="Svl"):
    """All limits of a stop and of a limit, with accelerations around 0.4 m/s² and under-reading."""
    bands = [{"emergency": 60, "service": 60}]
    journey = Journey(plain(train, bands, national, authority=stop(5 * KM, 2_000)))
    for a, u in ((0, 0), (39, 0), (40, 1), (41, 500), (300, 10_000), (-300, 250)):
        journey.rest().read(20_000, est=4_000_000, a=a, u=u).at(kind, "d_I", 20_000, 1, a=a, u=u)
        journey.at(kind, "d_EBI", 20_000, 0, a=a, u=u).at(kind, "d_EBI", 20_000, 1, a=a, u=u)
    journey.rest().record("limit", 5 * KM, 90)
    for v, a, u in ((24_000, 0, 0), (24_000, 41, 0), (23_000, 41, 900), (26_000, 100, 0), (24_900, 1, 3), (24_000, -50, 1_200)):
        journey.read(v, est=4_800_000, a=a, u=u)
        if v > 25_000 or a or u:
            journey.at("Loa", "d_EBI", v, 0, a=a, u=u).at("Loa", "d_EBI", v, 1, a=a, u=u)
    return journey


def release(bands=None, train=(), release_kmh=18, beyond=5_000, track=()):
    """The start of release speed monitoring, speeds in it, and the ways out of it."""
    journey = Journey(plain(train, bands, authority=stop(5 * KM, beyond, release_kmh), track=track))
    start = journey.release_start() // GRAINS_PER_MM
    for by in (-1, 0, 1):
        for v in speeds_around(release_kmh * NOTCHES_PER_KM_H):
            journey.rest().read(v, max=start + by)
    journey.read(0, max=start + 1).read(1_000, max=start - 1).read(1_000, max=start + 1)
    fast = release_kmh * 2500 // 9 + 3_000         # a service brake that is held into it, by over alone
    journey.rest().at("Eoa", "d_SBI", fast, 1).read(fast, max=start + 1).read(fast - 2_999, max=start + 2).read(fast - 3_000, max=start + 2)
    for by in (-1, 0, 1):
        for v in (0, 100, release_kmh * 2500 // 9, release_kmh * 2500 // 9 + 1):
            journey.rest().read(v, min=5_000_000 + by)
    journey.rest().read(4_000, max=start + 1).record("end", 5 * KM, 5 * KM + beyond, 0).read(4_000, max=start + 1)
    journey.record("end", 6 * KM, 6 * KM, release_kmh).read(4_000, max=start + 1).record("limit", 5 * KM, 60)
    return journey.read(4_000, max=start + 1)


def fall_in_release():
    """In release speed monitoring a fall is a target still: its limits are printed, and its triggers hold."""
    track = {"speed": [{"start": 0, "speed": 160}, {"start": 4_990 * 100, "speed": 10}]}
    journey = Journey(plain({}, [{"emergency": 50, "service": 50}], authority=stop(5 * KM, 2_000, 40), track=track))
    for v in (2_000, 2_778, 5_000, 9_000, 11_111, 11_112):
        for mm in (4_985_000, 4_989_000, 4_989_999, 4_990_000):
            journey.rest().read(v, max=mm)
    return journey


def commands():
    yield "held", "each class of a reading after nothing, O, tco, sb and eb held; eb until standstill", held()
    yield "held-early-release", "the same with early release", held({"early_release": True})
    yield "held-without-service-brake", "the same without a service brake", held(train={"service_brake": False})
    yield "held-not-permitted", "the same where the service brake isn't permitted, with early release", \
        held({"service_in_target": False, "early_release": True})
    yield "sequence", "through P, W and SBI and back", sequence()
    yield "sequence-early-release", "the same with early release", sequence({"early_release": True})
    yield "after-a-record", "authorities, restrictions and revocations leave what is held; equal times", after_a_record()


def all_times():
    for name, (shows, train) in TRAINS.items():
        yield name, shows, times(train)
    yield "no-service-brake", "T_bs is 0 without a service brake, and serv gives the emergency command", \
        times({"service_brake": False, "service_time": 40, "emergency_time": 20})
    yield "not-permitted", "the same where the service brake isn't permitted", \
        times({"service_time": 40, "traction_cutoff_time": 90, "traction_cutoff_interface": True}, {"service_in_target": False})
    yield "inhibited", "the under-reading amount counts as 0", times({"emergency_time": 30}, {"inhibit_under_reading": True})


def all_release():
    yield "by-the-sbd", "the start by the SBD and T_bs; speeds and front ends on both sides; the ways out", \
        release([{"service": 40}], {"service_time": 30}, beyond=20_000)
    yield "by-the-ebd", "the start by the EBD and all three times", release(
        [{"emergency": 40}], {"service_time": 20, "traction_cutoff_time": 15, "emergency_time": 40}, beyond=2_000)
    yield "without-service-brake", "the same without a service brake", release(
        [{"emergency": 40}], {"service_time": 20, "service_brake": False, "emergency_time": 25}, beyond=500)
    yield "over-bands", "a release speed in the second band, on a gradient", release(
        [{"upper": 10, "service": 70, "emergency": 60}, {"service": 50, "emergency": 45}], release_kmh=30,
        track={"gradient": [{"start": 0, "grad": 0}, {"start": 4_980 * 100, "grad": -12}]})
    yield "fall", "a fall is a target in release speed monitoring too", fall_in_release()
    yield "svl-at-eoa", "SvL at the EOA, release speed of 5 km/h", release(release_kmh=5, beyond=0)
