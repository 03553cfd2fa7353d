"""Inputs with a mistake each: a table of edits of a whole input, with what is told of each of them.

Blocks of lines, apart by empty ones; a line that begins with `#` is a comment. First come edits, `NUMBER = TEXT` in
place of a line or `NUMBER > TEXT` before it; then the fault line of the program, and a line for each finding.
"""
import re
from collections.abc import Iterator
from typing import NamedTuple

FAULT = "sdm: "


class Mistake(NamedTuple):
    """An edited input, the fault line that is due, and what is told besides."""

    edits: list[str]
    text: str
    fault: str
    findings: list[str]


def edited(whole: str, edits: list[str]) -> str:
    """An input with lines changed, and others put before a line."""
    lines, before = whole.split("\n"), dict[int, list[str]]()
    for edit in edits:
        found = re.fullmatch(r"(\d+) ([=>]) ?(.*)", edit)
        if found is None:
            raise ValueError(f"no edit: {edit!r}")
        if found[2] == "=":
            lines[int(found[1]) - 1] = found[3]
        else:
            before.setdefault(int(found[1]), []).append(found[3])
    return "\n".join(line for i, each in enumerate(lines, 1) for line in [*before.get(i, []), each])


def mistakes(table: str, whole: str) -> Iterator[Mistake]:
    """The mistakes of a table."""
    text = "\n".join(line for line in table.split("\n") if not line.startswith("#"))
    for block in re.split(r"\n{2,}", text.strip("\n")):
        lines = block.split("\n")
        at = next(i for i, line in enumerate(lines) if line.startswith(FAULT))
        yield Mistake(lines[:at], edited(whole, lines[:at]), lines[at], lines[at + 1 :])
