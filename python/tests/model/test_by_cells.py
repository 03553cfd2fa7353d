"""The profile once more, cell by cell as PROFILE.md says it, against the model's stretches and steps."""
import random
import unittest
from fractions import Fraction

from sdm_evidence.model.curves import BrakeCurve
from sdm_evidence.model.data import Area, Band, Data, Gradient, National, StaticSpeed, Stop, Track, Train
from sdm_evidence.model.decelerations import brakes_of
from sdm_evidence.model.records import Restriction
from sdm_evidence.model.speeds import mrsp
from sdm_evidence.model.units import GRAINS_PER_CM, NOTCHES_PER_KM_H

CM, KMH = GRAINS_PER_CM, NOTCHES_PER_KM_H


def small_data(rng):
    """A track of some metres, so that it can be walked by cells."""
    length, starts = 600, lambda n: sorted(rng.sample(range(1, 599), n))
    bands = [
        Band(
            None,
            *(rng.randint(80, 400) for _ in range(3)),
            rng.randint(500, 1000),
            rng.randint(500, 1000),
            rng.randint(0, 30),
            rng.randint(0, 30),
            rng.choice([None, 80, rng.randint(60, 80)]),
        )
        for _ in range(rng.randint(1, 4))
    ]
    uppers = sorted(rng.sample(range(1, 20), len(bands) - 1)) + [None]
    bands = tuple(band._replace(upper=upper) for band, upper in zip(bands, uppers))
    grads = tuple(Gradient(start, rng.randint(-200, 200)) for start in [0] + starts(rng.randint(0, 5)))

    def some_areas():
        cuts = [rng.choice([0, 1, 2])] + starts(4)[1:]
        return tuple(Area(a, b) for a, b in [cuts[:2], cuts[2:]][: rng.randint(0, 2)] if a < b)

    speeds = tuple(
        StaticSpeed(start, rng.randint(1, 20), rng.random() < 0.5) for start in [0] + starts(rng.randint(0, 4))
    )
    train = Train(rng.randint(1, 300), rng.randint(10, 20), rng.choice([None, 0, 9, 50]), 0, False, 0, 0, True, bands)
    return Data(
        train,
        National(rng.randint(0, 20), rng.randint(20, 200), False, True, False, False),
        Track(length, rng.choice([grads, ()]), speeds, some_areas(), some_areas()),
        Stop(300, 300, 0),
    )


def slope(data, kind, band, x):
    """PROFILE "Decelerations", the whole-number formulas, at the cell x of a front end."""
    x, L, M = max(x, 0), data.train.length, data.train.rotating_mass
    entries = data.track.gradient

    def grad_of(c):
        return [each.grad for each in entries if each.start <= c][-1] if c >= 0 else entries[0].grad

    grad = min(grad_of(c) for c in range(x - L, x + 1)) if entries else 0
    reduced = any(area.start <= x <= area.end + L - 1 for area in data.track.adhesion)
    unaided = any(area.start <= x <= area.end + L - 1 for area in data.track.no_special)
    q = 11_730 if M is None else 100 + M
    G = 196_200_000 * grad * ((102 if grad >= 0 else 115) if M is None else 1)
    em = band.emergency_reduced if unaided and band.emergency_reduced else band.emergency
    E = band.kdry * (20 * band.kwet + data.national.avadh * (1000 - band.kwet)) * em
    if reduced:
        E = min(E, 20_000_000 * data.national.adhesion_max)
    Kn = band.kn_up if grad >= 0 else band.kn_down
    return {
        "safe": q * E + G,
        "expected": 20_000_000 * q * band.service + G,
        "normal": 20_000_000 * q * band.normal + G - 2_000 * q * Kn * grad,
    }[kind], q


def walk(data, kind, f, w, v, rounded):
    """PROFILE "Curves", by cells."""
    uppers = [band.upper * KMH if band.upper else None for band in data.train.band]
    place, square, aim = Fraction(f), Fraction(w * w), v * v
    down = lambda p: Fraction(p // 1) if rounded else p
    if v > w:
        band = next(i for i, upper in enumerate(uppers) if upper is None or upper > w)
    else:
        band = next(i for i, upper in enumerate(uppers) if upper is None or upper >= w)
    while square != aim:
        back = v > w
        cell = int(-(-place // CM)) - 1 if back else int(place // CM)
        border = cell * CM if back else (cell + 1) * CM
        s, q = slope(data, kind, data.train.band[band], cell)
        per_grain = Fraction(27 * s, 5 * 10**12 * q)
        at_border = square + per_grain * (place - border)
        if back:
            stop = min(aim, uppers[band] ** 2) if uppers[band] else aim
            inside = at_border < stop
        else:
            stop = max(aim, uppers[band - 1] ** 2) if band else aim
            inside = at_border > stop
        if inside:
            place, square = Fraction(border), at_border
        else:
            place, square = down(place + (square - stop) / per_grain), Fraction(stop)
            band += 1 if back else -1
    return place


class ByCells(unittest.TestCase):
    def test_slopes(self):
        rng = random.Random(1)
        for _ in range(60):
            data = small_data(rng)
            for kind in ("safe", "expected", "normal"):
                brake = brakes_of(data)[kind]
                for x in rng.sample(range(-5, 1000), 12) + [0, 1]:
                    stretch = sum(border <= x * CM for border in brake.borders)
                    for number, band in enumerate(data.train.band):
                        self.assertEqual((brake.slopes[stretch][number], brake.q), slope(data, kind, band, x))

    def test_curves(self):
        rng, walked = random.Random(2), 0
        while walked < 60:
            data, kind = small_data(rng), rng.choice(["safe", "expected", "normal"])
            brake = brakes_of(data)[kind]
            if any(20 * s < 2 * 10**9 * brake.q for stretch in brake.slopes for s in stretch):
                continue
            speeds = [rng.randint(0, 20 * KMH) for _ in range(2)] + [u for u in brake.uppers] + [0, 3 * KMH]
            f, w, v = rng.randint(0, 600) * CM, rng.choice(speeds), rng.choice(speeds)
            for exact in (False, True):
                curve = BrakeCurve(brake, f, w, exact)
                for u in (v, rng.choice(speeds), v):
                    self.assertEqual(curve.place(u), walk(data, kind, f, w, u, not exact), (data, kind, f, w, u))
            walked += 1

    def test_mrsp(self):
        rng = random.Random(3)
        for _ in range(40):
            data = small_data(rng)
            held = [
                Restriction(i, *sorted(rng.sample(range(0, 600), 2)), rng.randint(1, 20), rng.randint(0, 1))
                for i in range(rng.randint(0, 4))
            ]
            profile, L, entries = mrsp(data, held), data.train.length, data.track.speed
            for c in range(-3, 950):
                speeds = [data.train.max_speed]
                for i, entry in enumerate(entries):
                    last = c if i + 1 == len(entries) else entries[i + 1].start - 1 + (L if entry.delayed else 0)
                    if (entry.start <= c or i == 0) and c <= last:
                        speeds.append(entry.speed)
                speeds += [each.speed for each in held if each.start <= c <= each.end - 1 + (L if each.delayed else 0)]
                self.assertEqual(profile.lowest(c, c), min(speeds))
