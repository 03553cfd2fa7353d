"""What is expected of a value, and what was found, as texts: by the tables of the model."""
from difflib import get_close_matches
from typing import Any

from sdm.exact import Key

# What a unit is often mixed up with: its name, and how many of the unit it is.
LARGER = {"cm": ("m", 100), "ds": ("s", 10), "cm/s²": ("m/s²", 100), "mm": ("m", 1000), "mm/s": ("m/s", 1000)}
LARGER |= {"thousandths": ("a fraction", 1000), "twentieths": ("a fraction", 20)}
SMALLER = {"cm": ("mm", 10), "ds": ("ms", 100)}


def unit_of(key: Key, version: int = 2) -> str:
    return key.unit_of_1 if version == 1 and key.unit_of_1 else key.unit


def range_of(key: Key, version: int = 2) -> tuple[int, int]:
    """The range of a key in the unit of a version."""
    old = key.old_unit if version == 1 else 1
    return -(-key.least // old), key.most // old


def with_unit(text: str, unit: str) -> str:
    return f"{text} {unit}" if unit else text


def span(least: int, most: int, unit: str, step: int = 1) -> str:
    """A range as the pages write it."""
    return with_unit(f"{least:,} to {most:,}", unit) + (f", in steps of {step}" if step > 1 else "")


def due(key: Key, ends: tuple[int, int], version: int = 2) -> str:
    """What a key takes: of a number the range."""
    if key.kind is bool:
        return "true or false"
    if key.kind is dict:
        return "a section"
    if key.kind is list:
        return f"a list of {key.least:,} to {key.most:,} tables"
    return "a whole number, " + span(*ends, unit_of(key, version), key.step) if key.kind is int else "a text"


def told(value: Any) -> str:
    """A value of a document, and what kind it is of."""
    if isinstance(value, bool):
        return f"{str(value).lower()}, a flag"
    if isinstance(value, str):
        return f'"{value}", a text'
    if isinstance(value, (list, dict)):
        return "a list" if isinstance(value, list) else "a table"
    return f"{value}, a {'float' if isinstance(value, float) else 'whole number' if isinstance(value, int) else 'time'}"


def kind_hint(key: Key, value: Any, ends: tuple[int, int], version: int) -> str:
    """Why a value may be of the wrong kind."""
    unit = unit_of(key, version)
    if key.kind is bool:
        return "a flag is written true or false, without quotes" if isinstance(value, (int, str)) else ""
    if isinstance(value, str) and value.lstrip("+-").isdecimal():
        return "a number has no quotes"
    if isinstance(value, float) and unit in LARGER:
        name, factor = LARGER[unit]
        if (value * factor).is_integer() and ends[0] <= value * factor <= ends[1]:
            return f"as {name} it would be {value * factor:.0f} {unit}"
    if isinstance(value, float) and value.is_integer():
        return f"a number has no point: {value:.0f}"
    return ""


def smaller_hint(value: int, unit: str, ends: tuple[int, int]) -> str:
    """Where a number is too great, and would fit as one of a smaller unit."""
    name, factor = SMALLER.get(unit, ("", 1))
    if value > ends[1] and name and value % factor == 0 and ends[0] <= value // factor <= ends[1]:
        return f"as {name} it would be {value // factor} {unit}"
    return ""


def nearest(name: str, names: list[str]) -> str | None:
    """The name that is most like a misspelt one, if any is."""
    found = get_close_matches(name.lower().replace("-", "_").replace(" ", "_"), names, 1)
    return found[0] if found else None
