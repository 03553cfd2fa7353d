"""What refuses an authority, with its numbers (PROFILE "What a record does")."""
from typing import NamedTuple

from sdm.exact import Calculated, Limit, Stop

from sdm.findings.expected import SMALLER


class Refusal(NamedTuple):
    """The text of a fault line; the name of the number that it is about; what was found, what is expected, a hint."""

    text: str
    name: str
    found: str
    expected: str
    hint: str = ""


def refusals(authority: Stop | Calculated | Limit, length: int | None) -> list[Refusal]:
    """All that refuses an authority on a track of a length in cm, where one is known; the first as the program does."""
    if isinstance(authority, Limit):
        return beyond("loa", authority.loa, length)
    found = []
    if authority.svl < authority.eoa:
        expected = f"at least {authority.eoa} cm, the EOA: the SvL isn't before it"
        found.append(
            Refusal("supervised location before end", "svl", f"{authority.svl} cm", expected, in_smaller(authority))
        )
    found += beyond("svl", authority.svl, length)
    if isinstance(authority, Calculated) and not authority.eoa <= authority.trip <= authority.svl:
        expected = f"{authority.eoa:,} to {authority.svl:,} cm, from the EOA to the SvL"
        found.append(Refusal("bad trip place", "trip", f"{authority.trip} cm", expected))
    return found


def in_smaller(authority: Stop | Calculated) -> str:
    """Where an EOA past the SvL would lie before it as one in mm."""
    name, factor = SMALLER["cm"]
    eoa = authority.eoa // factor
    return f"as {name} the EOA would be {eoa} cm" if authority.svl // 2 <= eoa <= authority.svl else ""


def beyond(name: str, place: int, length: int | None) -> list[Refusal]:
    """The refusal of a place past the track's end."""
    if length is None or place <= length:
        return []
    unit, factor = SMALLER["cm"]
    hint = f"as {unit} it would be {place // factor} cm" if place // factor <= length else ""
    return [Refusal("beyond track", name, f"{place} cm", f"at most {length:,} cm, the track's length", hint)]
