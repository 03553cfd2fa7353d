"""Quantities as texts: exact where they have an end, else with a mark that digits follow."""
from fractions import Fraction

from sdm.exact import GRAINS_PER_MM, NOTCHES_PER_KM_H, NOTCHES_PER_MM_S, Number, Target

DIGITS = 9  # behind the point


def number(value: Number | float, digits: int = DIGITS) -> str:
    """A fraction in decimal; `…` stands where it goes on, which is rounded towards lower values."""
    value = Fraction(value)
    scaled = value * 10**digits
    whole = scaled.numerator // scaled.denominator
    text = f"{'-' if whole < 0 else ''}{abs(whole) // 10**digits}.{abs(whole) % 10**digits:0{digits}}".rstrip(
        "0"
    ).rstrip(".")
    return text if whole == scaled else text + "…"


def metres(grains: Number | None) -> str:
    """A place or a way in m."""
    return "none" if grains is None else number(Fraction(grains) / (1000 * GRAINS_PER_MM)) + " m"


def speed(notches: Number) -> str:
    """A speed in m/s and km/h."""
    m_s, km_h = Fraction(notches) / (1000 * NOTCHES_PER_MM_S), Fraction(notches) / NOTCHES_PER_KM_H
    return f"{number(m_s, 6)} m/s ({number(km_h, 4)} km/h)"


def seconds(ds: int) -> str:
    return number(Fraction(ds, 10)) + " s"


def target(each: Target) -> str:
    """What a target is called: its kind as the standard writes it, its place, its speed."""
    if each.kind == "Mrsp":
        return f"fall of the MRSP to {each.V_target} km/h at {metres(each.place)}"
    if each.kind == "Loa":
        return f"LOA at {metres(each.place)}, {each.V_target} km/h"
    return f"{'EOA' if each.kind == 'Eoa' else 'SvL'} at {metres(each.place)}"


def short(each: Target) -> str:
    """A target in a word or two."""
    return {"Mrsp": f"fall to {each.V_target}", "Loa": "LOA", "Eoa": "EOA", "Svl": "SvL"}[each.kind]
