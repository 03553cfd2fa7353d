"""A table as the text of a data part: its own values first, then a header for each table and for each entry of a list
of tables. Tables that lie deeper stand on one line, as TOML 1.0 has it."""
import json
from collections.abc import Iterator, Mapping
from typing import Any

from sdm.errors import KindError


def value_text(value: Any, path: str) -> str:
    """A value on one line, also one of NumPy. Raises KindError for one that no data part has, with its path."""
    if hasattr(value, "tolist"):
        value = value.tolist()
    if isinstance(value, bool):
        return "true" if value else "false"
    if isinstance(value, int):
        return str(value)
    if isinstance(value, str):
        return json.dumps(value, ensure_ascii=False)
    if isinstance(value, list):
        return f"[ {', '.join(value_text(each, f'{path}[{i}]') for i, each in enumerate(value, 1))} ]"
    if not isinstance(value, dict):
        told = f"{path} is {value!r}, of the type {type(value).__name__}"
        raise KindError(f"{told}; a data part has whole numbers, texts and flags alone")
    return f"{{ {', '.join(pair_lines(value, path))} }}"


def pair_lines(table: Mapping[str, Any], path: str = "") -> Iterator[str]:
    """Each key with its value."""
    return (f"{key} = {value_text(value, f'{path}.{key}'.removeprefix('.'))}" for key, value in table.items())


def is_tables(value: Any) -> bool:
    """Whether a value is a list of tables, each of which has a header."""
    return isinstance(value, list) and bool(value) and all(isinstance(each, dict) for each in value)


def section_lines(name: str, table: Mapping[str, Any]) -> Iterator[str]:
    """A table with its header, its own values first, and then its lists of tables."""
    yield f"[{name}]"
    yield from pair_lines({key: value for key, value in table.items() if not is_tables(value)}, name)
    for key, tables in table.items():
        for i, each in enumerate(tables if is_tables(tables) else (), 1):
            yield f"\n[[{name}.{key}]]"
            yield from pair_lines(each, f"{name}.{key}[{i}]")
    yield ""


def toml(document: Mapping[str, Any]) -> str:
    """The text of a table."""
    lines = [*pair_lines({key: value for key, value in document.items() if not isinstance(value, dict)}), ""]
    for name, table in document.items():
        if isinstance(table, dict):
            lines += section_lines(name, table)
    return "\n".join(lines) + "\n"
