"""What is of its own in data/, openings/ and curves/ where a train has many bands: up to eight whose slopes differ sixteenfold, nine
and ten whose slopes differ eightfold, eleven that are too many."""
from .curves import AREAS, STEEP, through_bands
from .plain import KM, Journey, limit, plain, stop
from .refusals import text


def banded(uppers, each=(), last=()):
    """Bands of these upper speeds and one more, which all have `each`, and the last has `last` too."""
    return [{"upper": upper} | dict(each) for upper in uppers] + [dict(each) | dict(last)]


def data():
    yield "bands-as-many", "ten bands", text(plain(bands=banded(range(10, 100, 10))))
    yield "bands-too-many", "eleven bands", text(plain(bands=banded(range(10, 110, 10))))
    yield "eleventh-band", "a rule broken in the eleventh band comes before the count", text(
        plain(bands=banded(range(10, 110, 10), last={"kwet": True})))
    yield "eleven-bands-before-their-numbers", "the count comes before the numbers of the bands", text(
        plain(bands=banded(range(10, 110, 10), {"kwet": 0})))
    yield "eleven-bands-before-their-order", "and before their order", text(plain(bands=banded([10] * 10)))


def openings():
    """Reduced adhesion leaves 0.1 m/s² in one cell."""
    short, national, area = {"length": 1}, {"adhesion_max": 10}, {"adhesion": [{"start": 0, "end": 1}]}
    for count, word, most, fold in [(8, "eight", 160, "sixteenfold"), (9, "nine", 80, "eightfold"), (10, "ten", 80, "eightfold")]:
        uppers = range(10, 10 * count, 10)
        for name, shows, last in [(f"greatest-variation-of-{word}-bands", f"exactly {fold} is accepted with {word} bands", most),
                                  (f"varied-of-{word}-bands", f"more than {fold} in the last of {word} bands", most + 1)]:
            yield name, shows, text(plain(short, banded(uppers, {"emergency": most}, {"emergency": last}), national, area))


TEN_BANDS = [band | {"emergency": emergency, "service": emergency - 5} for band, emergency in zip(
    banded(range(15, 150, 15)), (70, 90, 60, 110, 75, 85, 65, 105, 95, 100))]
# km/h between which the EBD of 80 km/h runs on from its foot, 87.5 km/h
NARROW = [band | {"emergency": emergency} for band, emergency in zip(
    banded(range(79, 88)), (70, 90, 60, 110, 75, 85, 65, 105, 95, 70))]


def rounding():
    """Of 0.7 m/s² in all bands: at 49 m/s the exact EBD lies at 285 m and the stepped one five grains before it."""
    bands = banded(range(18, 180, 18), {"emergency": 70, "service": 70})
    journey = Journey(plain({"max_speed": 200}, bands, track={"speed": [{"start": 0, "speed": 200}]}, authority=stop(2 * KM)),
                      home_mm=-1_000_000, behind=0, ahead=0)
    for mm in (284_999, 285_000, 285_001):
        journey.rest().read(49_000, est=mm)
    return journey


def curves():
    speeds = (1, 4_166, 4_167, 8_334, 16_667, 25_000, 33_333, 33_334, 37_500, 37_501, 69_444)
    yield "back-through-ten-bands", "an EBD and an SBD through ten bands, with gradients and areas", \
        through_bands(stop(5 * KM), speeds, track=STEEP | AREAS, bands=TEN_BANDS)
    yield "forward-through-ten-bands", "the EBD of an LOA forward from the tenth band to the third", \
        through_bands(limit(4 * KM + 1_000, 80), (22_223, 22_500, 22_501, 23_612, 24_305, 24_306, 40_000), track=STEEP, bands=NARROW)
    yield "rounding-in-ten-bands", "a stepped place five grains before the exact one", rounding()
