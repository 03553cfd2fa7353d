"""Writes a table as TOML, plainly as the examples are or in odd spellings (FORMATS "The data part")."""
import json
from random import Random
from typing import Any

from sdm_evidence.model.data import Table
from sdm_evidence.model.layout import is_tables


class Raw(str):
    """A value that is written as it is."""


def number(value: int, rng: Random | None) -> str:
    if rng is None or value < 0 or rng.random() < 0.5:
        return str(value)
    digits = str(value)
    return rng.choice(
        [
            hex(value),
            bin(value),
            oct(value),
            "0x" + f"{value:X}",
            "+" + digits,
            digits[:1] + "_" + digits[1:] if len(digits) > 1 else digits,
        ]
    )


def value_text(value: Any, rng: Random | None) -> str:
    if isinstance(value, Raw):
        return str(value)
    if isinstance(value, bool):
        return "true" if value else "false"
    if isinstance(value, int):
        return number(value, rng)
    if isinstance(value, str):
        return f"'{value}'" if rng and rng.random() < 0.5 else json.dumps(value, ensure_ascii=False)
    many = rng is not None and rng.random() < 0.3
    blank, last = ("\n  ", rng.choice([",", ", # a comment", ""])) if rng and many else (" ", "")
    if isinstance(value, list):
        inner = ("," + blank).join(value_text(each, rng) for each in value)
        return f"[{blank}{inner}{last if value else ''}{chr(10) if many else ''}]"
    if not isinstance(value, dict):
        raise TypeError(f"{value!r} has no form in a data part")
    inner = ", ".join(f"{key_text(key, rng)} = {value_text(each, rng)}" for key, each in value.items())
    return f"{{ {inner} }}"  # on one line, as TOML 1.0 has it


def key_text(key: str, rng: Random | None) -> str:
    return key if rng is None or rng.random() < 0.8 else f'"{key}"'


def pairs(table: Table, rng: Random | None) -> list[tuple[str, Any]]:
    found = list(table.items())
    if rng is not None:
        rng.shuffle(found)
    return found


def section(name: str, table: Table, rng: Random | None, lines: list[str]) -> None:
    """A table with its header, its own keys first, and then its arrays of tables."""
    lines.append(f"[{name}]")
    later = []
    for key, value in pairs(table, rng):
        if is_tables(value) and (rng is None or rng.random() < 0.7):
            later.append((key, value))
        else:
            lines.append(f"{key_text(key, rng)} = {value_text(value, rng)}")
    for key, tables in later:
        for each in tables:
            lines.append(f"\n[[{name}.{key}]]")
            lines += [f"{key_text(inner, rng)} = {value_text(value, rng)}" for inner, value in pairs(each, rng)]
    lines.append("")


def toml(document: Table, rng: Random | None = None) -> str:
    """The text of a table; rng None is plain."""
    own, headed, top = [], [], pairs(document, rng)
    for key, value in top:
        if type(value) is not dict:
            own.append(f"{key_text(key, rng)} = {value_text(value, rng)}")
        elif rng is None or rng.random() < 0.6:
            headed.append((key, value))
        elif rng.random() < 0.5 and value:
            own += [
                f"{key_text(key, rng)}.{key_text(inner, rng)} = {value_text(each, rng)}"
                for inner, each in value.items()
            ]
        else:
            own.append(f"{key_text(key, rng)} = {value_text(value, rng)}")
    lines = (["# made"] if rng is not None and rng.random() < 0.5 else []) + own + [""]
    for key, value in headed:
        section(key, value, rng, lines)
    return "\n".join(lines) + "\n"
