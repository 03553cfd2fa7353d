"""Writes the index by clause of docs/SAFETY.md: for each clause that docs/definitions.csv names as a source, the
definitions that a command of the program reaches and that stand on it.

    scripts/house show clauses     prints the index
    scripts/house write clauses    puts it between its marks in docs/SAFETY.md
    scripts/house check clauses    fails where the document's index is stale
"""
from __future__ import annotations

import re
from pathlib import Path

from scripts.pages.believed import COMMANDS
from scripts.pages.definitions import DATA, rows_of
from scripts.pages.part import Part
from scripts.pages.specs import ROOT

PART = Part(
    "clauses",
    ROOT / "docs" / "SAFETY.md",
    "<!-- The index from here on is written by scripts/house write clauses. -->",
    "<!-- The index ends here. -->",
    "scripts/house write clauses",
)

CLAUSE = re.compile(r"(?<![\w.])((?:A|\d+)(?:\.\d+)+)(\*?)")


def all_between(first: str, last: str) -> list[str]:
    """The clauses from one to another that differs in its last number alone."""
    stem, low = first.rsplit(".", 1)
    other, high = last.rsplit(".", 1)
    if stem != other or int(high) < int(low):
        raise ValueError(f"no row of clauses: {first} to {last}")
    return [f"{stem}.{n}" for n in range(int(low), int(high) + 1)]


def clauses_of(source: str) -> list[tuple[str, str]]:
    """The clauses of a source, each with its star; `a to b` stands for all between."""
    found, last_end = [], None
    for match in CLAUSE.finditer(source):
        clause, star = match.groups()
        if last_end is not None and source[last_end : match.start()] == " to ":
            found += [(each, star) for each in all_between(found.pop()[0], clause)]
        else:
            found.append((clause, star))
        last_end = match.end()
    return found


def order_of(clause: str) -> list[float | int]:
    """Clauses in the order of the standard, its appendix last."""
    return [float("inf") if part == "A" else int(part) for part in clause.split(".")]


def by_clause() -> dict[tuple[str, str], dict[str, list[str]]]:
    """clause -> the definitions that the commands of the program reach, by file."""
    index: dict[tuple[str, str], dict[str, list[str]]] = {}
    for row in rows_of(DATA.read_text()):
        if row.has_clause() and row.is_of(*COMMANDS):
            shown = f"`{row.name}`" + ("" if row.source.startswith("as ") else " (s)")
            for clause, star in clauses_of(row.source):
                index.setdefault((clause, star), {}).setdefault(Path(row.file).stem, []).append(shown)
    return index


def listed() -> str:
    """The index in Markdown."""
    index = by_clause()
    lines = ["", "| Clause | Definitions, by file of specs/ |", "|---|---|"]
    for clause, star in sorted(index, key=lambda key: (order_of(key[0]), key[1])):
        files = [f"{file}: {', '.join(names)}" for file, names in index[clause, star].items()]
        lines.append(f"| {clause}{star} | {'. '.join(files)} |")
    return "\n".join([*lines, ""]) + "\n"


def main(words: list[str]) -> int:
    return PART.main(words, listed(), [])
