"""ceiling/: the speed profile, the ceiling of a reading, and its margins."""
from sdm_evidence.model.speeds import dV_ebi, dV_sbi, dV_warning
from sdm_evidence.model.units import NOTCHES_PER_KM_H

from .plain import KM, Journey, plain, speeds_around, stop

# limits whose speeds with a margin are whole mm/s, and the bends of the margins
LIMITS = [5, 6, 8, 72, 78, 80, 86, 109, 110, 111, 125, 139, 140, 141, 180, 209, 210, 211, 300]
FAR = 100 * KM


def margins():
    """The ceiling rises every km, so that there is no fall."""
    rising = [{"start": i * KM, "speed": speed, "delayed": False} for i, speed in enumerate(LIMITS)]
    journey = Journey(plain({"max_speed": 500, "length": 100}, [{"emergency": 400, "service": 400}], track={
        "length": FAR, "speed": rising}, authority=stop(FAR)), behind=0, ahead=0)
    for i, speed in enumerate(LIMITS):
        journey.home_mm = 10 * (i * KM + 50_000)
        for margin in (lambda v: 0, dV_warning, dV_sbi, dV_ebi):
            for v in speeds_around(speed * NOTCHES_PER_KM_H + margin(speed)):
                journey.rest().read(v)
    return journey


def front_ends():
    """Slower from 3 km to 4 km: the max safe front end comes to it, the min safe one leaves it."""
    slow = [{"start": 0, "speed": 100}, {"start": 3 * KM, "speed": 60, "delayed": False}, {"start": 4 * KM, "speed": 90}]
    journey = Journey(plain(track={"speed": slow}, authority=stop(9 * KM)))
    for by in (-11, -1, 0, 1):
        journey.read(10_000, max=3_000_000 + by).read(16_700, max=3_000_000 + by)
    for by in (-11, -10, -1, 0, 1):
        journey.read(10_000, min=4_000_000 + by).read(16_700, min=4_000_000 + by)
    return journey.read(10_000, est=3_500_000, behind=600_000, ahead=0).read(
        10_000, est=3_500_000, behind=0, ahead=600_000)


def ends(**entry):
    """A slower part from 3 km to 4 km of the static profile, left at its end or a train's length later."""
    slow = [{"start": 0, "speed": 100} | entry, {"start": 3 * KM, "speed": 60} | entry, {"start": 4 * KM, "speed": 90} | entry]
    journey = Journey(plain(track={"speed": slow}, authority=stop(9 * KM)), behind=0, ahead=0)
    for by in (-1, 0):
        journey.read(17_000, min=4_000_000 + by).read(17_000, min=4_100_000 + by)
    for by in (-1, 0):
        journey.read(17_000, min=3_000_000 + by).read(25_000, min=3_100_000 + by)
    return journey


def first_and_last():
    """The first speed counts before cell 0, the last one past the end of the track."""
    rising = [{"start": 0, "speed": 30}, {"start": 9 * KM, "speed": 50}]
    journey = Journey(plain(track={"speed": rising}, authority=stop(10 * KM)), home_mm=-60_000)
    return journey.read(8_400).read(8_300).read(8_400, est=4_000).read(14_000, est=9_900_000).rest().read(
        13_000, max=10_050_000).rest().read(14_000, est=-9_990_000)


def restrictions(delayed):
    """A restriction from 3 km to 4 km, delayed or not; another over it, and one that begins at 0."""
    journey = Journey(plain(authority=stop(9 * KM)), behind=0, ahead=0)
    journey.record("restrict", 1, 3 * KM, 4 * KM, 60, delayed)
    for mm in (2_999_999, 3_000_000, 3_999_999, 4_000_000, 4_099_999, 4_100_000):
        journey.read(16_667, est=mm)
    journey.record("restrict", 65_535, 35 * KM // 10, 36 * KM // 10, 40, delayed)
    for mm in (3_499_999, 3_500_000, 3_599_999, 3_600_000, 3_699_999, 3_700_000):
        journey.read(11_112, est=mm)
    journey.rest().record("restrict", 0, 0, 100, 30, delayed)
    for mm in (-1_000, -11, -10, -1, 0, 990, 999, 1_000, 100_999, 101_000):
        journey.read(8_400, est=mm)
    journey.record("revoke", 1).read(16_700, est=3_200_000).record("revoke", 65_535).read(16_700, est=3_550_000)
    return journey


def train_speed():
    """The maximum speed of the train where the profile and a restriction are faster."""
    journey = Journey(plain({"max_speed": 90}, authority=stop(9 * KM)))
    journey.read(25_000).read(25_001)
    journey.record("restrict", 1, 0, 9 * KM, 120, 0).read(25_000).read(25_001)
    journey.record("restrict", 2, 0, 9 * KM, 45, 0).read(12_500).read(12_501)
    return journey


def vectors():
    yield "margins", "over, warn, serv and emer by the ceiling: 19 ceilings, each margin a mm/s below, at and above", margins()
    yield "front-ends", "the ceiling is the lowest from the min to the max safe front end, both cells included", front_ends()
    yield "ends-by-default", "a static speed that isn't said to be delayed ends for the rear end", ends()
    yield "ends-delayed", "a static speed that is delayed ends for the rear end", ends(delayed=True)
    yield "ends-at-once", "a static speed that isn't delayed ends for the front end", ends(delayed=False)
    yield "first-and-last", "the first static speed counts before cell 0, the last one past the track", first_and_last()
    yield "restrictions-at-once", "restrictions that end for the front end, and none before cell 0", restrictions(0)
    yield "restrictions-delayed", "restrictions that end for the rear end, and none before cell 0", restrictions(1)
    yield "train-speed", "the maximum train speed where all else is faster", train_speed()
