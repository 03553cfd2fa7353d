"""The arithmetic of a row, step by step in the standard's terms and units, so that a person can repeat it.

Each step has its formula, its numbers and its result; `…` stands where digits follow. A curve goes from its foot to the
speed that is asked for, through speed bands and through stretches of the track with one gradient, adhesion and special
brake; in each of them v² changes by 2 · A · distance.
"""

from bisect import bisect_left, bisect_right
from collections.abc import Iterator
from fractions import Fraction
from functools import lru_cache
from math import isqrt
from typing import NamedTuple

from sdm.laboratory.texts import metres, number
from sdm.exact import (
    A_EST2_MOST,
    A_brake_safe,
    A_em,
    A_gradient,
    Band,
    Brake,
    BrakeCurve,
    Data,
    GRAINS_PER_CM,
    GRAINS_PER_MM,
    Leg,
    NOTCHES_PER_KM_H,
    NOTCHES_PER_MM_S,
    Number,
    Reading,
    Steps,
    Stop,
    Supervisor,
    T_driver,
    T_warning,
    Target,
    TargetLimits,
    Times,
    dV_ebi,
    under_the_train,
)

DIGITS = 6  # behind the point
PRECISE = 10**12  # of a root, whose fraction is cut there
NAMES = {"safe": "EBD", "expected": "SBD", "normal": "guidance curve"}
SYMBOLS = {"safe": "A_safe", "expected": "A_expected", "normal": "A_normal"}


def plain(value: Number) -> str:
    """A number with a few digits."""
    return number(value, DIGITS)


def signed(value: Number) -> str:
    """A number behind an operator: in brackets where it is negative."""
    return plain(value) if value >= 0 else f"({plain(value)})"


def m_s(notches: Number) -> Fraction:
    return Fraction(notches) / (1000 * NOTCHES_PER_MM_S)


def m(grains: Number) -> Fraction:
    return Fraction(grains) / (1000 * GRAINS_PER_MM)


def s(ds: int) -> Fraction:
    return Fraction(ds, 10)


def root(value: Fraction) -> Fraction:
    """A square root, exact where there is one, else cut."""
    top, bottom = isqrt(value.numerator), isqrt(value.denominator)
    if top * top == value.numerator and bottom * bottom == value.denominator:
        return Fraction(top, bottom)
    return Fraction(isqrt(int(value * PRECISE**2)), PRECISE)


def times_lines(data: Data, times: Times) -> list[str]:
    """PROFILE "Times"."""
    train, told = data.train, {name: plain(s(value)) for name, value in times._asdict().items() if name != "in_use"}
    cut_off, build_up = plain(s(train.traction_cutoff_time)), plain(s(train.emergency_time))
    if train.traction_cutoff_interface:
        shorter = f"T_warning {plain(s(T_warning))} + T_bs {told['T_bs']}"
        lines = [f"T_traction = max({cut_off} − ({shorter}), 0) = {told['T_traction']} s"]
    else:
        lines = [f"T_traction = T_traction_cut_off = {cut_off} s, without a cut-off interface"]
    lines.append(f"T_berem = max({build_up} − {told['T_traction']}, 0) = {told['T_berem']} s")
    return lines + [f"T_indication = max(0.8 · {told['T_bs']}, 5) + 4 = {told['T_indication']} s"]


def bec_lines(data: Data, times: Times, reading: Reading, target: Target, each: TargetLimits) -> list[str]:
    """PROFILE "Until the emergency brake works"."""
    V, A = m_s(reading.V_est), Fraction(reading.accel, 100)
    A1 = max(A, Fraction(0))
    A2 = min(A1, Fraction(A_EST2_MOST, 100))
    T1, T2 = s(times.T_traction), s(times.T_berem)
    under = Fraction(0) if data.national.inhibit_under_reading else Fraction(reading.under, 1000)
    V1, V2, V_target = A1 * T1, A2 * T2, m_s(target.V_target * NOTCHES_PER_KM_H)
    inhibited = ", the under-reading is inhibited" if data.national.inhibit_under_reading else ""
    with_1, half_1 = max(V + under + V1, V_target), max(V + under + V1 / 2, V_target)
    return [
        f"  V_delta0 = {plain(under)} m/s{inhibited}",
        f"  A_est1 = max({plain(A)}, 0) = {plain(A1)} m/s², A_est2 = min({plain(A1)}, 0.4) = {plain(A2)} m/s²",
        f"  V_delta1 = A_est1 · T_traction = {plain(A1)} · {plain(T1)} = {plain(V1)} m/s, "
        f"V_delta2 = A_est2 · T_berem = {plain(A2)} · {plain(T2)} = {plain(V2)} m/s",
        "  V_bec = max(V_est + V_delta0 + V_delta1, V_target) + V_delta2",
        f"        = max({plain(V)} + {plain(under)} + {plain(V1)}, {plain(V_target)}) + {plain(V2)} "
        f"= {plain(m_s(each.V_bec))} m/s",
        "  D_bec = max(V_est + V_delta0 + V_delta1/2, V_target) · T_traction "
        "+ (max(V_est + V_delta0 + V_delta1, V_target) + V_delta2/2) · T_berem",
        f"        = {plain(half_1)} · {plain(T1)} + ({plain(with_1)} + {plain(V2 / 2)}) · {plain(T2)} "
        f"= {metres(each.D_bec)}",
    ]


def foot_line(target: Target) -> str:
    """The foot speed of a target's curve."""
    if target.is_stop:
        return "  foot speed w = 0"
    km_h = Fraction(dV_ebi(target.V_target)) / NOTCHES_PER_KM_H
    return (
        f"  foot speed w = V_target + dV_ebi(V_target) = {target.V_target} + {plain(km_h)} km/h "
        f"= {plain(m_s(target.foot_speed))} m/s"
    )


def release_lines(supervisor: Supervisor) -> list[str]:
    """PROFILE "Release speed monitoring": where it starts; no line where there is no release speed."""
    authority, times, curves = supervisor.authority, supervisor.times, supervisor.curves
    if not isinstance(authority, Stop) or authority.release == 0:
        return []
    V = authority.release * NOTCHES_PER_KM_H
    lines, starts = [f"V_rel = {authority.release} km/h = {plain(m_s(V))} m/s"], []
    until_braked = times.T_traction + times.T_berem + times.T_bs
    for kind, name, place, symbol, time in (
        ("expected", "Eoa", authority.eoa, "T_bs", times.T_bs),
        ("safe", "Svl", authority.svl, "(T_traction + T_berem + T_bs)", until_braked),
    ):
        end = Target(name, place * GRAINS_PER_CM, 0)
        lines += curve_lines(supervisor, kind, end, V, 0)
        at = curves.place(kind, end.place, 0, V, exact=True)
        starts.append(m(at) - m_s(V) * s(time))
        lines.append(
            f"  d_{NAMES[kind]}(V_rel) − V_rel · {symbol} = {plain(m(at))} − {plain(m_s(V))} · {plain(s(time))} "
            f"= {plain(starts[-1])} m"
        )
    return lines + [f"start = min({', '.join(map(plain, starts))}) = {plain(min(starts))} m"]


def limit_formula(name: str, target: Target, exact: TargetLimits, times: Times, V: Number) -> str:
    """How a limit follows from the place before it."""
    V_est, is_end = plain(m_s(V)), target.kind == "Eoa"
    if name == "EBI":
        return f"d_EBD(V_bec) − D_bec = {plain(m(exact.curve))} − {plain(m(exact.D_bec))}"
    if name == "SBI":
        first, place = ("d_SBD(V_est)", exact.curve) if is_end else ("EBI", exact.d_EBI)
        return f"{first} − V_est · T_bs = {plain(m(place))} − {V_est} · {plain(s(times.T_bs))}"
    if name == "P" and exact.guide is not None and exact.guide == exact.d_P:
        return "d_guide(V_est), which is earlier than SBI − V_est · T_driver"
    before, place = ("P", exact.d_P) if name == "I" else ("SBI", exact.d_SBI)
    symbol, time = {
        "W": ("T_warning", T_warning),
        "P": ("T_driver", T_driver),
        "I": ("T_indication", times.T_indication),
    }[name]
    return f"{before} − V_est · {symbol} = {plain(m(place))} − {V_est} · {plain(s(time))}"


class CurvePart(NamedTuple):
    """A part of a curve in one band and one stretch: from a place and the square of a speed in (m/s)² to another."""

    band: int
    stretch: int
    begin: Number
    begin_square: Fraction
    end: Number
    end_square: Fraction
    is_to_border: bool  # a stretch ends it, and not a speed


def parts_of(curve: BrakeCurve, v: Number) -> Iterator[CurvePart]:
    """The parts of an exact curve from its foot to a speed in notches."""
    place = curve.place(v)
    if v == curve.foot_speed:
        return
    is_back, brake = v > curve.foot_speed, curve.brake
    square, unit = brake.square(v), brake.square(1000 * NOTCHES_PER_MM_S)
    band = (bisect_right if is_back else bisect_left)(brake.uppers, curve.foot_speed)
    for leg in curve.back if is_back else curve.forward:
        stretch = (bisect_left if is_back else bisect_right)(curve.borders, leg.place) - 1
        is_last = leg.end_square >= square if is_back else leg.end_square <= square
        end, end_square = (place, square) if is_last else (leg.end_place, leg.end_square)
        begin = Fraction(leg.square) / unit
        yield CurvePart(
            band, stretch, leg.place, begin, end, Fraction(end_square) / unit, is_border(curve, leg, is_last)
        )
        if is_last:
            return
        band = leg.next_band


def is_border(curve: BrakeCurve, leg: Leg, is_last: bool) -> bool:
    return not is_last and leg.end_place in curve.borders


def curve_lines(supervisor: Supervisor, kind: str, target: Target, v: Number, foot_speed: int) -> list[str]:
    """PROFILE "Curves" and "Decelerations": a curve from its foot to a speed, part by part."""
    brake = supervisor.curves.brakes[kind]
    curve = supervisor.curves.curve(kind, target.place, foot_speed, True)
    lines = []
    for part in parts_of(curve, v):
        lines += deceleration_lines(supervisor.data, kind, brake, part) + [way_line(kind, brake, part)]
    return lines or [f"  {NAMES[kind]}: the speed is that of its foot"]


@lru_cache(2)
def stretches(data: Data) -> Steps[tuple[int, bool, bool]]:
    """What is under the train, by the front end's cell."""
    return under_the_train(data)


def stretch_text(data: Data, kind: str, number_of_it: int) -> str:
    """Where a stretch of the track is, and what is so under the train, as far as the kind of brake asks for it."""
    steps = stretches(data)
    grad, reduced, unaided = steps.values[number_of_it]
    start = metres(steps.starts[number_of_it] * GRAINS_PER_CM) if number_of_it else "before 0 m"
    ends = steps.starts[number_of_it + 1 : number_of_it + 2]
    to = f" to {metres(ends[0] * GRAINS_PER_CM)}" if ends else " on"
    more = ", adhesion reduced" * reduced + ", special brake not used" * unaided if kind == "safe" else ""
    return f"front end from {start}{to}, {plain(Fraction(grad, 10))} ‰ (grad {grad}) under the train{more}"


def band_text(data: Data, number_of_it: int) -> str:
    bands = data.train.band
    if len(bands) == 1:
        return "one band"
    low = bands[number_of_it - 1].upper if number_of_it else 0
    high = bands[number_of_it].upper
    return f"band {number_of_it + 1} ({low} to {high} km/h)" if high else f"band {number_of_it + 1} (from {low} km/h)"


def deceleration_lines(data: Data, kind: str, brake: Brake, part: CurvePart) -> list[str]:
    """The deceleration of a band and a stretch, with all that it is made of."""
    band = data.train.band[part.band]
    grad, reduced, unaided = stretches(data).values[part.stretch]
    lines = [f"  {NAMES[kind]}, {band_text(data, part.band)}, {stretch_text(data, kind, part.stretch)}:"]
    A, slope = A_gradient(data, grad), Fraction(brake.slopes[part.stretch][part.band], 2 * 10**9 * brake.q)
    if kind == "safe":
        own = A_brake_safe(data, band, reduced, unaided)
        lines.append(f"    {brake_text(data, band, reduced, unaided)} = {plain(own)} m/s²")
        sum_text = f"A_brake_safe + A_gradient = {plain(own)} + {signed(A)}"
    elif kind == "expected":
        own = Fraction(band.service, 100)
        sum_text = f"service + A_gradient = {plain(own)} + {signed(A)}"
    else:
        Kn = Fraction(band.kn_up if grad >= 0 else band.kn_down, 100)
        sum_text = (
            f"normal + A_gradient − Kn · grad/10,000 = {plain(Fraction(band.normal, 100))} + {signed(A)} "
            f"− {plain(Kn)} · {signed(grad)}/10,000"
        )
    lines.append(f"    {gradient_text(data, grad)} = {plain(A)} m/s²")
    return lines + [f"    {SYMBOLS[kind]} = {sum_text} = {plain(slope)} m/s²"]


def brake_text(data: Data, band: Band, reduced: bool, unaided: bool) -> str:
    """The formula of A_brake_safe with its numbers."""
    Kdry, Kwet, wet = Fraction(band.kdry, 1000), Fraction(band.kwet, 1000), Fraction(data.national.avadh, 20)
    text = f"Kdry · (Kwet + M_NVAVADH · (1 − Kwet)) · A_em = {plain(Kdry)} · ({plain(Kwet)} + {plain(wet)} · "
    text += f"(1 − {plain(Kwet)})) · {plain(A_em(band, unaided))}"
    most = plain(Fraction(data.national.adhesion_max, 100))
    return f"A_brake_safe = min({text}, adhesion_max {most})" if reduced else f"A_brake_safe = {text}"


def gradient_text(data: Data, grad: int) -> str:
    """The formula of A_gradient with its numbers; grad in tenths of a per mille."""
    mass = data.train.rotating_mass
    M = (15 if grad >= 0 else 2) if mass is None else mass
    why = ", the mass isn't known," if mass is None else ""
    return f"A_gradient = 9.81 · grad/(10,000 + 100 · M) = 9.81 · {signed(grad)}/(10,000 + 100 · {M}){why}"


def way_line(kind: str, brake: Brake, part: CurvePart) -> str:
    """From one place and speed to the next: the way by the speeds, or the speed by the way."""
    A = Fraction(brake.slopes[part.stretch][part.band], 2 * 10**9 * brake.q)
    way = m(part.begin) - m(part.end)
    v0, v1 = root(part.begin_square), root(part.end_square)
    begin = f"{metres(part.begin)} with {plain(v0)} m/s"
    side = "back" if way >= 0 else "on"
    if part.is_to_border:
        sign = "+" if way >= 0 else "−"
        return (
            f"    from {begin} {side} to {metres(part.end)}, where the stretch ends: "
            f"√({plain(part.begin_square)} {sign} 2 · {plain(A)} · {plain(abs(way))}) = {plain(v1)} m/s"
        )
    return (
        f"    from {begin} {side} to {plain(v1)} m/s: ({plain(part.end_square)} − {plain(part.begin_square)})"
        f"/(2 · {plain(A)}) = {plain(way)} m, at {metres(part.end)}"
    )
