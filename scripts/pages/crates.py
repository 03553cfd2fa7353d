"""Writes the table of crates of docs/ARCHITECTURE.md: the crates in the order of crates.txt. What a crate does is
written by hand in that table, and is kept.

    scripts/house show crates     prints the table
    scripts/house write crates    puts it between its marks in docs/ARCHITECTURE.md
    scripts/house check crates    fails where the table is stale, or a crate in it has no word of what it does; and
                                  where docs/SAFETY.md doesn't name software from elsewhere that crates.txt does
"""
from __future__ import annotations

import re

from scripts.pages.part import Part
from scripts.pages.specs import ROOT, crates, crates_with_libraries

PART = Part(
    "crates",
    ROOT / "docs" / "ARCHITECTURE.md",
    "<!-- The table from here on is written by scripts/house write crates, except its last column. -->",
    "<!-- The table ends here. -->",
    "scripts/house write crates",
)


def words_of_crates() -> dict[str, str]:
    """crate -> what the page's table says that it does."""
    text = PART.text()
    if not PART.has_marks(text):
        return {}
    table = text[text.index(PART.begin) : text.index(PART.end)]
    return dict(re.findall(r"^\| `(\w+)` \| (.*) \|$", table, re.M))


def listed() -> str:
    """The table in Markdown."""
    does = words_of_crates()
    lines = ["", "| Crate | What it does |", "|---|---|"]
    lines += [f"| `{name}` | {does.get(name, '')} |" for name in crates()]
    return "\n".join([*lines, ""]) + "\n"


def wordless() -> list[str]:
    """The crates of which the table says nothing."""
    does = words_of_crates()
    return [f"the table says nothing of what {name} does" for name in crates() if not does.get(name, "").strip()]


def unnamed() -> list[str]:
    """The libraries from elsewhere that docs/SAFETY.md doesn't name as part of the program."""
    _, _, section = (ROOT / "docs" / "SAFETY.md").read_text().partition("\n## What is part of the program")
    named = set(re.findall(r"`(\w+)`", section.partition("\n## ")[0]))
    libraries = {library for _, below in crates_with_libraries() for library in below} - set(crates())
    return [
        f"docs/SAFETY.md doesn't name {library}, which is part of the program" for library in sorted(libraries - named)
    ]


def main(words: list[str]) -> int:
    return PART.main(words, listed(), wordless() + unnamed())
