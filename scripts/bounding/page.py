"""What the pages have of the bounds: the table of calls, and the sentence on a reading."""
from __future__ import annotations

from scripts.bounding.calls import Bounds
from scripts.bounding.table import Table
from scripts.pages.part import Part
from scripts.pages.specs import ROOT

TABLE = Part(
    "bounds",
    ROOT / "docs" / "FROM-C.md",
    "<!-- The bounds from here on are written by scripts/house write bounds. -->",
    "<!-- The bounds end here. -->",
    "scripts/house write bounds",
)
SENTENCE = Part(
    "bounds",
    ROOT / "docs" / "INTEGRATION.md",
    "<!-- The bounds from here on are written by scripts/house write bounds. -->",
    "<!-- The bounds end here. -->",
    "scripts/house write bounds",
)
MOVES = ("memcpy", "memmove", "memset")


def part(found: list[Bounds], rows: Table) -> str:
    """The table of the calls, and what in it no clause says, in Markdown."""
    return "\n".join(["", *calls(found), "", *unproved(found, rows), ""])


def calls(found: list[Bounds]) -> list[str]:
    """The lines of the table of the calls."""
    lines = [
        "| Call | Stack, bytes | Instructions | of these divisions | of these accesses to memory | Calls of "
        + ", ".join(f"`{name}`" for name in MOVES)
        + " |",
        "|---|---:|---:|---:|---:|---:|",
    ]
    for each in found:
        if each.stack is not None:
            cells = [each.stack.depth, *each.counts.values(), sum(each.outside.get(name, 0) for name in MOVES)]
            lines.append(f"| `{each.call}` | " + " | ".join(f"{cell:,}" for cell in cells) + " |")
    return lines


def unproved(found: list[Bounds], rows: Table) -> list[str]:
    """What is missing of sizes and walks, each with the calls that rest on it."""
    names = {name for each in found for name in each.unproved}
    if not names:
        return []
    lines = ["These rest on what bounds.toml has, and on no clause:", ""]
    lines += ["| Row of bounds.toml | What it counts | What no clause says | Calls |", "|---|---|---|---|"]
    for name in sorted(names):
        row = rows.walks.get(name) or rows.sizes[name]
        on = ", ".join(f"`{each.call}`" for each in found if name in each.unproved)
        lines.append(f"| `{name}` | {row.of} | {row.missing} | {on} |")
    return [*lines, ""]


def sentence(found: list[Bounds], call: str = "sdm_cycle") -> str:
    """What a reading takes."""
    (each,) = [each for each in found if each.call == call]
    stack = each.stack.depth if each.stack else 0
    instructions, divisions, accesses = each.counts.values()
    return (
        f"\nA reading, by `{call}`, runs at most {instructions:,} instructions, of which {divisions:,} divide and "
        f"{accesses:,} access memory, and takes {stack:,} bytes of stack.\n\n"
    )
