"""The text of a table as the toolchain's `toml` lays it out, which `upgrade` writes (FORMATS "`upgrade`")."""
import json
from typing import Any

from sdm_evidence.model.data import Table


def value_text(value: Any) -> str:
    """A value on one line, as TOML 1.0 has it."""
    if isinstance(value, bool):
        return "true" if value else "false"
    if isinstance(value, list):
        return f"[ {', '.join(map(value_text, value))} ]" if value else "[ ]"
    return json.dumps(value, ensure_ascii=False)


def is_tables(value: Any) -> bool:
    """Whether a value is a list of tables, each of which has a header."""
    return type(value) is list and len(value) > 0 and all(type(each) is dict for each in value)


def laid_out(table: Table, path: str = "") -> str:
    """The keys in the order of their letters, the values first, and then each table behind an empty line and a header
    of its own."""
    headed = [name for name in sorted(table) if type(table[name]) is dict or is_tables(table[name])]
    parts = [f"{name} = {value_text(table[name])}\n" for name in sorted(table) if name not in headed]
    for name in headed:
        is_one, inner = type(table[name]) is dict, f"{path}{name}"
        header = f"\n[{inner}]\n" if is_one else f"\n[[{inner}]]\n"
        parts += [header + laid_out(each, f"{inner}.") for each in ([table[name]] if is_one else table[name])]
    return "".join(parts)
