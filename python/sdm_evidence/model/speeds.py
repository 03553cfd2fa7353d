"""Profile of speeds (PROFILE "Speed profile and ceiling"): zones, MRSP, falls, ceiling, margins over a limit."""
from collections.abc import Callable, Iterable
from fractions import Fraction
from math import inf
from typing import NamedTuple

from sdm_evidence.model.data import Data
from sdm_evidence.model.records import Reading, Restriction
from sdm_evidence.model.units import NOTCHES_PER_KM_H, Steps, steps_of

Margin = Callable[[int], int]  # notches, by a limit in km/h


class Zone(NamedTuple):
    """km/h; the cells from `start` up to but not including `end`."""

    speed: int
    start: float
    end: float


def static_zones(data: Data) -> list[Zone]:
    """PROFILE "Speed profile and ceiling", static profile: the first zone also before cell 0, the last without end."""
    entries = data.track.speed
    zones: list[Zone] = []
    for entry, after in zip(entries, (*entries[1:], None)):
        end = inf if after is None else after.start + (data.train.length if entry.delayed else 0)
        zones.append(Zone(entry.speed, entry.start if zones else -inf, end))
    return zones


def restriction_zone(data: Data, restriction: Restriction) -> Zone:
    """PROFILE "Speed profile and ceiling", temporary restriction."""
    rear = data.train.length if restriction.delayed else 0
    return Zone(restriction.speed, restriction.start, restriction.end + rear)


def mrsp(data: Data, restrictions: Iterable[Restriction]) -> Steps[int]:
    """PROFILE "Speed profile and ceiling": the MRSP of each cell, in km/h. Cell -1 stands for all before cell 0."""
    zones = static_zones(data) + [restriction_zone(data, each) for each in restrictions]
    borders = {int(border) for zone in zones for border in (zone.start, zone.end) if abs(border) < inf} | {-1}
    return steps_of(
        borders,
        lambda cell: min([data.train.max_speed] + [zone.speed for zone in zones if zone.start <= cell < zone.end]),
    )


def falls(profile: Steps[int]) -> list[tuple[int, int]]:
    """PROFILE "Words", fall: the borders of cells at which the MRSP goes down, with the speed behind them."""
    steps = zip(profile.starts[1:], profile.values[1:], profile.values)
    return [(start, speed) for start, speed, before in steps if speed < before]


def ceiling(profile: Steps[int], reading: Reading) -> int:
    """PROFILE "Speed profile and ceiling": M, the lowest MRSP from the min to the max safe front end's cell."""
    return profile.lowest(reading.cell("min"), reading.cell("max"))


def margin_over(least: str, rise: str, most: str) -> Margin:
    """PROFILE "Margins over a limit", in notches by a limit in km/h: up to 110 km/h, the rise over that, at most."""
    at_110, a_km_h, at_most = (int(Fraction(km_h) * NOTCHES_PER_KM_H) for km_h in (least, rise, most))
    return lambda v: min(at_110 + a_km_h * max(v - 110, 0), at_most)


no_margin = margin_over("0", "0", "0")
dV_ebi = margin_over("7.5", "0.075", "15")
dV_sbi = margin_over("5.5", "0.045", "10")
dV_warning = margin_over("4", "1/30", "5")
