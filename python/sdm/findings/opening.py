"""What refuses the opening over data that hold: slopes, and then the authority (PROFILE "Slopes that are refused")."""
from fractions import Fraction

from sdm.exact import (
    Brake,
    Data,
    GRAINS_PER_CM,
    brakes_of,
    under_the_train,
)

from sdm.findings.authority import refusals
from sdm.findings.data_part import path_text
from sdm.findings.finding import Finding
from sdm.findings.toml_places import KeyPath, Places

KEYS = {"safe": "emergency", "expected": "service", "normal": "normal"}  # the deceleration that a slope is made of


def tell(places: Places, path: KeyPath, found: str, expected: str, hint: str = "") -> Finding:
    line, column = places.of_value(path) or (None, None)
    return Finding(line, column, path_text(path), found, expected, hint)


def weak(data: Data, places: Places, brake: Brake, band: int) -> list[Finding]:
    """The weakest slope of a band where it is too weak: where the first such cell is, and what weakens it."""
    slopes = [stretch[band] for stretch in brake.slopes]
    unit, under = 2 * 10**9 * brake.q, under_the_train(data)
    cells = [i for i, slope in enumerate(slopes) if 20 * slope < unit]
    if not cells:
        return []
    first, value = cells[0], float(Fraction(slopes[cells[0]], unit))
    start = 0 if first == 0 else brake.borders[first - 1] // GRAINS_PER_CM
    grad, reduced, unaided = under.values[first]
    causes = [f"a gradient of {grad / 10:g} per mille under the train"]
    causes += ["reduced adhesion"] * (reduced and brake.kind == "safe")
    causes += ["no special brake"] * (unaided and brake.kind == "safe")
    article = "an" if brake.kind == "expected" else "a"
    found = f"{article} {brake.kind} deceleration of {value:.3f} m/s² from {start} cm on, with {', '.join(causes)}"
    return [tell(places, ("train", "band", band, KEYS[brake.kind]), found, "at least 0.05 m/s²")]


def varied(places: Places, brake: Brake, band: int, bands: int) -> list[Finding]:
    """A band whose slopes differ too much."""
    slopes = [stretch[band] for stretch in brake.slopes]
    least, most, unit = min(slopes), max(slopes), 2 * 10**9 * brake.q
    times = 16 if bands <= 8 else 8
    if least <= 0 or most <= times * least:
        return []
    low, high = (float(Fraction(slope, unit)) for slope in (least, most))
    found = f"{brake.kind} decelerations from {low:.3f} to {high:.3f} m/s² along the track"
    return [tell(places, ("train", "band", band, KEYS[brake.kind]), found, f"the most at most {times} times the least")]


def opening_faults(data: Data, places: Places) -> list[Finding]:
    """All faults of the opening."""
    findings, bands = [], range(len(data.train.band))
    for brake in brakes_of(data).values():
        for band in bands:
            findings += weak(data, places, brake, band) or varied(places, brake, band, len(bands))
    for each in refusals(data.authority, data.track.length):
        findings.append(tell(places, ("authority", each.name), each.found, each.expected, each.hint))
    return findings
