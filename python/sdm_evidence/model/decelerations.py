"""Decelerations (PROFILE "The track under the train", "Decelerations", "Slopes that are refused")."""
from fractions import Fraction
from typing import NamedTuple, overload

from sdm_evidence.model.data import Area, Band, Data
from sdm_evidence.model.outcome import Refused
from sdm_evidence.model.units import GRAINS_PER_CM, NOTCHES_PER_KM_H, Number, Steps, steps_of


def in_force(areas: tuple[Area, ...], L: int, x: int) -> bool:
    """PROFILE "The track under the train": an area is in force in the cells `start` to `end` + L − 1."""
    return any(area.start <= x < area.end + L for area in areas)


def under_the_train(data: Data) -> Steps[tuple[int, bool, bool]]:
    """PROFILE "The track under the train", by the front end's cell x, from 0 on: the lowest gradient of the cells x − L
    to x in tenths of a per mille, whether adhesion is reduced, and whether the special brake isn't used."""
    L, entries = data.train.length, data.track.gradient
    adhesion, no_special = data.track.adhesion, data.track.no_special
    gradient = Steps([entry.start for entry in entries] or [0], [entry.grad for entry in entries] or [0])

    def under(x: int) -> tuple[int, bool, bool]:
        return gradient.lowest(x - L, x), in_force(adhesion, L, x), in_force(no_special, L, x)

    areas = adhesion + no_special
    starts, ends = [each.start for each in entries + areas], [area.end for area in areas]
    return steps_of({0, *starts} | {cell + L for cell in starts + ends}, under)


def A_em(band: Band, unaided: bool) -> Fraction:
    """PROFILE "Decelerations", in m/s²: where the special brake isn't used what the band says is left, else all."""
    return Fraction(band.emergency_reduced if unaided and band.emergency_reduced is not None else band.emergency, 100)


def A_brake_safe(data: Data, band: Band, reduced: bool, unaided: bool) -> Fraction:
    """PROFILE "Decelerations", in m/s², exact."""
    Kdry, Kwet, M_NVAVADH = Fraction(band.kdry, 1000), Fraction(band.kwet, 1000), Fraction(data.national.avadh, 20)
    A = Kdry * (Kwet + M_NVAVADH * (1 - Kwet)) * A_em(band, unaided)
    return min(A, Fraction(data.national.adhesion_max, 100)) if reduced else A


def A_gradient(data: Data, grad: int) -> Fraction:
    """PROFILE "Decelerations", in m/s²: the rotating mass is 15 or 2 percent where it isn't known."""
    M = data.train.rotating_mass
    if M is None:
        M = 15 if grad >= 0 else 2
    return Fraction(981, 100) * grad / (10_000 + 100 * M)


def A_safe(data: Data, band: Band, grad: int, reduced: bool, unaided: bool) -> Fraction:
    """PROFILE "Decelerations", in m/s², as the two below."""
    return A_brake_safe(data, band, reduced, unaided) + A_gradient(data, grad)


def A_expected(data: Data, band: Band, grad: int, reduced: bool, unaided: bool) -> Fraction:
    return Fraction(band.service, 100) + A_gradient(data, grad)


def A_normal(data: Data, band: Band, grad: int, reduced: bool, unaided: bool) -> Fraction:
    Kn = Fraction(band.kn_up if grad >= 0 else band.kn_down, 100)
    return Fraction(band.normal, 100) + A_gradient(data, grad) - Kn * Fraction(grad, 10_000)


FORMULAS = {"safe": A_safe, "expected": A_expected, "normal": A_normal}


class Brake(NamedTuple):
    """All slopes of one kind: slopes[stretch][band], whole numbers of 1/Q m/s²; a stretch is cells of equal slopes.

    The stretches meet at `borders`, in grains; the first one is also what counts before cell 0, the last has no end.
    `uppers` are the upper speeds of the bands but the last, in notches.
    """

    kind: str
    q: int
    uppers: tuple[int, ...]
    borders: tuple[int, ...]
    slopes: tuple[tuple[int, ...], ...]

    @overload
    def square(self, speed: int) -> int:
        ...

    @overload
    def square(self, speed: Number) -> Number:
        ...

    def square(self, speed: Number) -> Number:
        """PROFILE "Curves": the square of a speed in notches, times 5·10¹²·q."""
        return 5 * 10**12 * self.q * speed * speed


def brakes_of(data: Data) -> dict[str, Brake]:
    """PROFILE "Decelerations": all slopes, by their kind. q is 11,730 where no mass is given."""
    bands, mass, stretches = data.train.band, data.train.rotating_mass, under_the_train(data)
    q = 11_730 if mass is None else 100 + mass
    uppers = tuple(band.upper * NOTCHES_PER_KM_H for band in bands if band.upper is not None)
    borders = tuple(cell * GRAINS_PER_CM for cell in stretches.starts[1:])
    brakes = {}
    for kind, A in FORMULAS.items():
        slopes = {
            under: tuple(int(A(data, band, *under) * 2 * 10**9 * q) for band in bands)
            for under in set(stretches.values)
        }
        brakes[kind] = Brake(kind, q, uppers, borders, tuple(slopes[under] for under in stretches.values))
    return brakes


def refuse_slopes(brake: Brake) -> None:
    """PROFILE "Slopes that are refused": too weak (below 0.05 m/s²), then too varied (more than sixteenfold, with nine
    and ten bands more than eightfold)."""
    Q, bands = 2 * 10**9 * brake.q, list(enumerate(zip(*brake.slopes), 1))
    variation = 16 if len(bands) <= 8 else 8
    for number, slopes in bands:
        for slope, start in zip(slopes, (0,) + brake.borders):
            if 20 * slope < Q:
                raise Refused(f"too weak: {brake.kind} band {number} cell {start // GRAINS_PER_CM}")
    for number, slopes in bands:
        if max(slopes) > variation * min(slopes):
            raise Refused(f"too varied: {brake.kind} band {number}")
