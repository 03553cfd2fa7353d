"""A run of `check` as a picture shows it: the claims with their marks, as speeds over places, and the answers to
them."""

import re
from collections.abc import Iterable
from math import isqrt

from sdm.laboratory.program import Fault
from sdm.laboratory.rows import lines_of
from sdm.exact import (
    Brake,
    Claim,
    GRAINS_PER_MM,
    Lines,
    Mark,
    NOTCHES_PER_KM_H,
    Outcome,
    hold,
    is_accepted,
    read_claim,
    read_map,
    until_it_works,
)

from sdm.drawing.journey import counted
from sdm.drawing.values import DrawnEnd, Held, DrawnJourney, Polyline, DrawnReading, SeriesData, Span, Window
from sdm.drawing.sheet import BLACK, WHITE, Shade

GRAINS_PER_M = 1000 * GRAINS_PER_MM
POINTS = 24  # of the line from a mark to the next
FORM = re.compile(r"(\d+),(yes|no)", re.ASCII)
ANSWERS = {"yes": Shade("#009E73", BLACK, "yes"), "no": Shade("#D55E00", WHITE, "no")}

SERIES = {
    # name: style, title
    "claims": (f"lines lw 1.8 lc rgb '{BLACK}' dt (3,2)", "until the brake works"),
    "ways": ("lines lw 1.6 lc rgb '#0072B2'", "marks, and the way"),
    "marks": ("points pt 5 ps 0.8 lc rgb '#0072B2'", ""),
}


def check_journey(source: bytes, text: str, window: Window) -> DrawnJourney:
    """The claims of a text of certificates as readings, with the answers that were given to them."""
    brake, claims, fault = claims_of(source)
    answers = answers_of(text)
    counted(answers, len(claims), fault)
    readings = [reading_of(brake, *each, answer) for each, answer in zip(claims, answers)]
    kept = [n for n, reading in enumerate(readings) if window.has(reading.time)]
    if not kept:
        raise Fault("No claim lies within these times.")
    journey = DrawnJourney([readings[n] for n in kept], ends_of(claims[n][0] for n in kept))
    journey.certificates = {name: [points(brake, *claims[n]) for n in kept] for name, points in POINTS_OF.items()}
    wrong = [str(n) for n, reading in enumerate(readings, 1) if reading.differs]
    journey.note = f"answers that the model has otherwise: {', '.join(wrong)}" if wrong else ""
    return journey


def answers_of(text: str) -> list[re.Match[str]]:
    """The lines of `check`, each as its time and its answer."""
    return lines_of(text, FORM, "line of sdm check")


def claims_of(source: bytes) -> tuple[Brake, list[tuple[Claim, list[Mark]]], str]:
    """The map, the claims with their marks, and the fault of a line that ends them."""
    lines, claims = Lines(source), []
    try:
        brake = read_map(lines)
        while lines.are_left():
            claims.append(read_claim(lines))
    except Outcome as outcome:
        if not claims:
            raise Fault(f"The input has no claims: {outcome.line}.") from None
        return brake, claims, outcome.line
    return brake, claims, ""


def reading_of(brake: Brake, claim: Claim, marks: list[Mark], answer: re.Match[str]) -> DrawnReading:
    """A claim as a reading, with the answer to it."""
    if int(answer[1]) != claim.time:
        raise Fault(f"The rows are not those of the input: an answer has the time {answer[1]}, its claim {claim.time}.")
    due = "yes" if is_accepted(brake) and hold(brake, claim, marks) else "no"
    front = claim.front / GRAINS_PER_M
    row = {"time": answer[1], "holds": answer[2]}
    return DrawnReading(
        claim.time / 10,
        front,
        front,
        front,
        claim.speed / NOTCHES_PER_KM_H,
        row,
        {},
        differs="" if due == answer[2] else "holds",
    )


def ends_of(claims: Iterable[Claim]) -> list[Held[DrawnEnd]]:
    """The SvL of each claim, once for as long as it stands unchanged."""
    ends: list[Held[DrawnEnd]] = []
    for n, claim in enumerate(claims):
        end = DrawnEnd("SvL", claim.svl / GRAINS_PER_M)
        if ends and ends[-1].what == end:
            ends[-1].until = n + 1
        else:
            ends.append(Held(end, n, n + 1))
    return ends


def point_of(brake: Brake, place: int, energy: int) -> Span:
    """A place in m, and the speed of an energy in km/h."""
    return place / GRAINS_PER_M, isqrt(energy // (5 * 10**12 * brake.q)) / NOTCHES_PER_KM_H


def claim_line(brake: Brake, claim: Claim, marks: list[Mark]) -> Polyline:
    """From where the train is to where the brake works at the latest."""
    V_bec, D_bec = until_it_works(claim)
    return [
        point_of(brake, claim.front, brake.square(claim.speed)),
        point_of(brake, claim.front + D_bec, brake.square(V_bec)),
    ]


def way_line(brake: Brake, claim: Claim, marks: list[Mark]) -> Polyline:
    """From mark to mark, along which the energy falls evenly."""
    line = [point_of(brake, *marks[0])]
    for one, other in zip(marks, marks[1:]):
        way, lost = other.place - one.place, one.energy - other.energy
        for left in range(POINTS - 1, -1, -1):  # more of them to the end, where the speed falls soonest
            part = POINTS**2 - left**2
            line.append(point_of(brake, one.place + way * part // POINTS**2, one.energy - lost * part // POINTS**2))
    return line


def mark_points(brake: Brake, claim: Claim, marks: list[Mark]) -> Polyline:
    """The marks."""
    return [point_of(brake, *mark) for mark in marks]


POINTS_OF = {"claims": claim_line, "ways": way_line, "marks": mark_points}


def series_data(journey: DrawnJourney) -> SeriesData:
    """The data of the certificates, a break between two."""
    data = {}
    for name, lines in journey.certificates.items():
        data[name] = [text for line in lines for text in [*(f"{place:.3f} {kmh:.4f}" for place, kmh in line), ""]][:-1]
    return data


def series() -> list[tuple[str, str, str]]:
    """The series of certificates: name, columns and style."""
    return [(name, "1:2", style) for name, (style, _) in SERIES.items()]


def keys() -> list[tuple[str, str, str]]:
    """What the key says of them: name, style and title."""
    shown = {
        "claims": SERIES["claims"][0],
        "ways": SERIES["ways"][0].replace("lines", "linespoints", 1) + " pt 5 ps 0.8",
    }
    return [(name, style, SERIES[name][1]) for name, style in shown.items()]
