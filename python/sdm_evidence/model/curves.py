"""Curves (PROFILE "Curves"): EBD, SBD and guidance curve, walked from their foot, stepped or exact."""
from bisect import bisect_left, bisect_right
from fractions import Fraction
from functools import lru_cache, partial
from math import inf
from typing import Any, NamedTuple

from sdm_evidence.model.decelerations import Brake
from sdm_evidence.model.units import Number


class Leg(NamedTuple):
    """A part of a walk with one slope: it begins at `place` with `square` (as of Brake.square), and ends with the
    stretch of the track or with the band; the next one is in `next_band`. Places are grains. An end_square of inf is no
    end."""

    place: Number
    square: Number
    slope: int
    end_place: Number
    end_square: Number
    next_band: int


class BrakeCurve:
    """PROFILE "Curves": the curve of a brake from its foot, a place in grains and a speed in notches."""

    def __init__(self, brake: Brake, foot_place: int, foot_speed: Number, exact: bool = False) -> None:
        self.brake, self.foot_place, self.foot_speed, self.exact = brake, foot_place, foot_speed, exact
        self.borders: list[Any] = [-inf, *brake.borders, inf]
        self.squares: list[Any] = [
            0,
            *map(brake.square, brake.uppers),
            inf,
        ]  # band i lies between the i-th and the next
        self.back: list[Leg] = []  # the legs that were walked so far, as the next ones
        self.forward: list[Leg] = []

    def place(self, v: Number) -> Number:
        """The place where the curve has the speed v, in notches: whole grains, or a fraction where it is exact."""
        if v == self.foot_speed:
            return self.foot_place
        back, square = v > self.foot_speed, self.brake.square(v)
        legs, side = (self.back, 1) if back else (self.forward, -1)
        if not legs:  # a foot at an upper speed begins in the band above it, or below it
            band = (bisect_right if back else bisect_left)(self.brake.uppers, self.foot_speed)
            legs.append(self._leg(self.foot_place, self.brake.square(self.foot_speed), band, back))
        while side * legs[-1].end_square < side * square:
            legs.append(self._leg(legs[-1].end_place, legs[-1].end_square, legs[-1].next_band, back))
        leg = legs[bisect_left(legs, side * square, key=lambda leg: side * leg.end_square)]
        return self._along(leg.place, leg.square, leg.slope, square)

    def _along(self, place: Number, square: Number, slope: int, to_square: Number) -> Number:
        """5·10¹²·q · (change of the square) = 27 · slope · distance. A stepped place is rounded down, back and
        forward."""
        change, pull = square - to_square, 27 * slope
        return place + Fraction(change) / pull if self.exact else place + change // pull

    def _leg(self, place: Number, square: Number, band: int, back: bool) -> Leg:
        """Back through the cells before a place, or forward through those from it on, to the end of stretch or band."""
        stretch = (bisect_left if back else bisect_right)(self.borders, place) - 1
        slope, border = self.brake.slopes[stretch][band], self.borders[stretch if back else stretch + 1]
        at_border, of_band = square + 27 * slope * (place - border), self.squares[band + 1 if back else band]
        if at_border < of_band if back else at_border > of_band:
            return Leg(place, square, slope, border, at_border, band)
        end = place if of_band == inf else self._along(place, square, slope, of_band)
        return Leg(place, square, slope, end, of_band, band + 1 if back else band - 1)


class Curves:
    """The curves of a journey, of which the last ones are kept."""

    def __init__(self, brakes: dict[str, Brake]) -> None:
        self.brakes = brakes
        self.curve = lru_cache(5_000)(lambda kind, f, w, exact: BrakeCurve(brakes[kind], f, w, exact))
        self.d_EBD, self.d_SBD, self.d_guide = (partial(self.place, kind) for kind in ("safe", "expected", "normal"))

    def place(self, kind: str, f: int, w: int, v: Number, exact: bool = False) -> Number:
        """d_EBD(v), d_SBD(v) or d_guide(v) by the kind of brake, with the foot of the curve at the place f, speed w."""
        return self.curve(kind, f, w, exact).place(v)
