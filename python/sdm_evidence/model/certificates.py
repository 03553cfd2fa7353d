"""`certify` (CERTIFICATES, FORMATS "`certify`"): the safe map, and the claims of covered readings with their marks."""
from collections.abc import Iterable, Iterator
from typing import NamedTuple

from sdm_evidence.model.curves import BrakeCurve
from sdm_evidence.model.data import Stop
from sdm_evidence.model.decelerations import Brake
from sdm_evidence.model.journey import Supervisor, cycles
from sdm_evidence.model.limits import A_EST2_MOST
from sdm_evidence.model.records import Reading
from sdm_evidence.model.units import GRAINS_PER_CM, NOTCHES_PER_CM_S2_DS, NOTCHES_PER_MM_S, distance_at


class Claim(NamedTuple):
    """CERTIFICATES "A claim": ds, grains, notches, cm/s², ds, grains."""

    time: int
    front: int
    speed: int
    A1: int
    A2: int
    T_traction: int
    T_berem: int
    svl: int


class Mark(NamedTuple):
    """CERTIFICATES "Marks": grains, 5·10¹²·q · squared notches."""

    place: int
    energy: int


def claim_of(supervisor: Supervisor, reading: Reading) -> Claim:
    """CERTIFICATES "A claim", of a reading under an authority to an end."""
    data, times, A_est1 = supervisor.data, supervisor.times, max(reading.accel, 0)
    assert isinstance(supervisor.authority, Stop) and isinstance(reading.V_est, int)
    V_delta0 = 0 if data.national.inhibit_under_reading else reading.under * NOTCHES_PER_MM_S
    return Claim(
        reading.time,
        reading.front_end("max"),
        reading.V_est + V_delta0,
        A_est1,
        min(A_est1, A_EST2_MOST),
        times.T_traction,
        times.T_berem,
        supervisor.authority.svl * GRAINS_PER_CM,
    )


def until_it_works(claim: Claim) -> tuple[int, int]:
    """CERTIFICATES "When marks hold": V_bec in notches and D_bec in grains, by both accelerations as they are
    claimed."""
    V_delta1 = claim.A1 * claim.T_traction * NOTCHES_PER_CM_S2_DS
    V_delta2 = claim.A2 * claim.T_berem * NOTCHES_PER_CM_S2_DS
    D_bec = distance_at(claim.speed + V_delta1 // 2, claim.T_traction) + distance_at(
        claim.speed + V_delta1 + V_delta2 // 2, claim.T_berem
    )
    return claim.speed + V_delta1 + V_delta2, D_bec


def marks_of(brake: Brake, claim: Claim) -> list[Mark]:
    """CERTIFICATES "The marks of a reading": found back from the SvL along its stepped EBD, told by rising place."""
    V_bec, _ = until_it_works(claim)
    curve, marks, band = BrakeCurve(brake, claim.svl, 0), [Mark(claim.svl, 0)], 0
    first = Mark(int(curve.place(V_bec)), brake.square(V_bec))
    for leg, before in zip(curve.back, curve.back[1:]):
        if leg.end_square >= first.energy:
            break
        if leg.next_band > band or before.slope != leg.slope:  # a knot, or another slope of the present band
            marks.append(Mark(int(leg.end_place), int(leg.end_square)))
        band = leg.next_band
    if first.place != claim.svl:
        marks.append(first)
    return marks[::-1]


def written_segments(brake: Brake) -> list[tuple[int, tuple[int, ...]]]:
    """CERTIFICATES "The map": the cell from which on slopes hold, without segments whose slopes are those before
    them."""
    segments: list[tuple[int, tuple[int, ...]]] = []
    for border, slopes in zip((0, *brake.borders), brake.slopes):
        if not segments or segments[-1][1] != slopes:
            segments.append((border // GRAINS_PER_CM, slopes))
    return segments


def line_of(word: str, numbers: Iterable[int]) -> str:
    return ",".join([word, *map(str, numbers)]) + "\n"


def map_lines(brake: Brake) -> Iterator[str]:
    """FORMATS "`certify`": the lines of the map."""
    segments = written_segments(brake)
    yield line_of("map", (brake.q, len(brake.slopes[0]), len(segments)))
    if brake.uppers:
        yield line_of("uppers", brake.uppers)
    for start, slopes in segments:
        yield line_of("seg", (start, *slopes))


def certificate_lines(brake: Brake, claim: Claim) -> Iterator[str]:
    """FORMATS "`certify`": the lines of a claim and of its marks."""
    marks = marks_of(brake, claim)
    yield line_of("claim", (*claim, len(marks)))
    for mark in marks:
        yield line_of("mark", mark)


def certify(supervisor: Supervisor, events: bytes, count: int) -> Iterator[str]:
    """FORMATS "`certify`": the map, and the certificates of the first covered rows under an authority to an end, of the
    whole journey."""
    brake, given = supervisor.curves.brakes["safe"], 0
    yield from map_lines(brake)
    for cycle in cycles(supervisor, events):
        if given < count and cycle.row.covered and isinstance(cycle.situation.authority, Stop):
            yield from certificate_lines(brake, claim_of(supervisor, cycle.situation.reading))
            given += 1
