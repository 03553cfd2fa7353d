"""What an overview of a long journey shows of authorities and curves: those that the train came near to."""

import collections
from collections.abc import Iterable

from sdm.laboratory.walk import at_speed
from sdm.exact import Cycle, GRAINS_PER_MM, NOTCHES_PER_KM_H, Reading, Supervisor, Target

from sdm.drawing.values import DrawnEnd, Held, DrawnJourney, Polyline

NEAR_M, STEP_KMH = 1_500, 4
CURVES = {"ebi": "d_EBI", "permitted": "d_P"}  # those of an overview: its limits, and the model's names
GRAINS_PER_M = 1000 * GRAINS_PER_MM


def near_ends(journey: DrawnJourney) -> list[Held[DrawnEnd]]:
    """The ends of authorities to which the train came near while they were in force."""
    found = []
    for held in journey.ends:
        fronts = [reading.front for reading in journey.readings[held.since : held.until]]
        if max(fronts) > held.what.place - NEAR_M and held.what.name != "start of R":
            found.append(held)
    return found


def braked_for(cycles: Iterable[tuple[Reading, Cycle | None]]) -> dict[Target, tuple[Reading, int]]:
    """The targets past whose I the train was, each with the first such reading and its speed in km/h."""
    found: dict[Target, tuple[Reading, int]] = {}
    for reading, cycle in cycles:
        for each in cycle.situation.targets if cycle is not None else ():
            if (
                each.target not in found
                and each.x > each.d_I
                and reading.V_est > each.target.V_target * NOTCHES_PER_KM_H
            ):
                found[each.target] = reading, int(reading.V_est // NOTCHES_PER_KM_H)
    return found


def braking_curves(
    supervisor: Supervisor, cycles: Iterable[tuple[Reading, Cycle | None]], highest_kmh: float
) -> dict[str, list[Polyline]]:
    """EBI and permitted of each target that the train braked for, from the target's speed up to a little above the
    train's, as lines of (m, km/h)."""
    curves: dict[str, list[Polyline]] = collections.defaultdict(list)
    for target, (probe, kmh) in braked_for(cycles).items():
        top = min(kmh + 4 * STEP_KMH, int(highest_kmh))
        lines: dict[str, Polyline] = {name: [] for name in CURVES}
        for speed in range(target.V_target, top + 1, STEP_KMH):
            limits = supervisor.limits(at_speed(probe, speed, accel=0), target)
            for name, field in CURVES.items():
                place = getattr(limits, field)
                if place is not None:
                    lines[name].append((float(place / GRAINS_PER_M), float(speed)))
        for name, line in lines.items():
            curves[name] += [line] if line else []
    return curves
