"""The picture of each folder of examples/ whose page shows one, from its input, its rows and its words; and the
drawings of docs/pictures. They have no title, which would change with each version.

    scripts/house write pictures    draws them, as picture.svg into their folders and into docs/pictures
    scripts/house check pictures    fails where one isn't, to the byte, what is drawn now, or no page shows it
"""
from __future__ import annotations

import re
import tempfile
from collections.abc import Iterator
from pathlib import Path

from scripts.drawings import covered, interventions, limits, links, recording, ride
from scripts.pages.part import told
from scripts.pages.specs import ROOT
from sdm.picture import main as plot

EXAMPLES = sorted(path for path in (ROOT / "examples").iterdir() if path.is_dir())
DRAWINGS = ROOT / "docs" / "pictures"
DRAWN = {
    "covered": covered,
    "interventions": interventions,
    "limits": limits,
    "links": links,
    "recording": recording,
    "ride": ride,
}


def shows_one(example: Path) -> bool:
    """Whether the page of an example shows its picture."""
    page = example / "README.md"
    return page.is_file() and "picture.svg" in page.read_text()


def draw(example: Path, into: Path) -> None:
    """Draws the picture of an example into a file."""
    words = (example / "args").read_text().splitlines()
    plot([str(example / "input"), str(example / "rows"), str(into), *words, "--title", ""])


def drawn_by(picture: str) -> str:
    """By which gnuplot a picture was drawn."""
    found = re.search("Produced by GNUPLOT [^<]*", picture)
    return found[0] if found else "not by gnuplot"


def faults_of(example: Path, scratch: Path) -> Iterator[str]:
    """What is wrong with the picture of an example, if anything is."""
    there = example / "picture.svg"
    if not shows_one(example):
        if there.is_file():
            yield "its page doesn't show its picture"
    elif not there.is_file():
        yield "its page shows a picture that isn't there; scripts/house write pictures draws it"
    else:
        draw(example, scratch / "drawn.svg")
        old, new = there.read_text(), (scratch / "drawn.svg").read_text()
        if old != new and drawn_by(old) != drawn_by(new):
            yield f"the picture is by another gnuplot ({drawn_by(old)}) than this one ({drawn_by(new)})"
        elif old != new:
            yield "the picture is stale; scripts/house write pictures draws it anew"


def drawing_faults() -> Iterator[str]:
    """What is wrong with docs/pictures."""
    pages = "".join(page.read_text() for page in [ROOT / "README.md", *sorted((ROOT / "docs").glob("*.md"))])
    for name, module in DRAWN.items():
        there = DRAWINGS / f"{name}.svg"
        if not there.is_file() or there.read_text() != module.draw().svg():
            yield f"docs/pictures/{name}.svg: stale or missing; scripts/house write pictures draws it anew"
        if f"pictures/{name}.svg" not in pages:
            yield f"docs/pictures/{name}.svg: no page shows it"
    for there in sorted(DRAWINGS.glob("*")):
        if there.stem not in DRAWN:
            yield f"docs/pictures/{there.name}: nothing draws it"


def write() -> None:
    for example in filter(shows_one, EXAMPLES):
        draw(example, example / "picture.svg")
    for name, module in DRAWN.items():
        (DRAWINGS / f"{name}.svg").write_text(module.draw().svg())


def main(words: list[str]) -> int:
    if words == ["write"]:
        write()
        return 0
    with tempfile.TemporaryDirectory() as scratch:
        faults = [f"examples/{each.name}: {fault}" for each in EXAMPLES for fault in faults_of(each, Path(scratch))]
    return told("pictures", sum(map(shows_one, EXAMPLES)) + len(DRAWN), [*faults, *drawing_faults()])
