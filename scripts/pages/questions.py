"""Checks the questions of each kind of reader, which scripts/pages/questions.toml has: the place that answers one
exists and has the words that are named, and README leads to its page by at most two links.

    scripts/house check questions
"""
from __future__ import annotations

import re
import tomllib
from collections.abc import Iterator
from pathlib import Path

from scripts.pages.links import FENCE, anchors, links_of, slug_of
from scripts.pages.part import told
from scripts.pages.specs import ROOT

QUESTIONS = Path(__file__).with_name("questions.toml")
COUNT = 10  # of each kind of reader
STEPS = 2  # the most links from README to an answer
HEADING = re.compile(r"^(#{1,6})\s+(.*?)\s*#*$")


def reached(steps: int) -> set[Path]:
    """The pages to which README leads by that many links, itself too."""
    found, last = {ROOT / "README.md"}, {ROOT / "README.md"}
    for _ in range(steps):
        targets = {(page.parent / target.partition("#")[0]).resolve() for page in last for _, target in links_of(page)}
        last = {page for page in targets if page.suffix == ".md" and page.is_file()} - found
        found |= last
    return found


def section(page: Path, anchor: str) -> str:
    """The text below a heading, up to the next one of its level or above."""
    unfenced = FENCE.sub(lambda block: re.sub(r"^#", " ", block.group(), flags=re.M), page.read_text())
    level, lines = 0, list[str]()
    for line in unfenced.splitlines():
        heading = HEADING.match(line)
        if heading and level and len(heading[1]) <= level:
            break
        if heading and not level and slug_of(heading[2]) == anchor:
            level = len(heading[1])
        if level:
            lines.append(line)
    return "\n".join(lines)


def faults_of(place: str, words: str, pages: set[Path]) -> Iterator[str]:
    """What is wrong with the place of an answer."""
    name, _, anchor = place.partition("#")
    page = ROOT / name
    if not page.is_file() or anchor not in anchors(page):
        yield f"{place} is nowhere"
    elif page not in pages:
        yield f"README doesn't lead to {name} by {STEPS} links"
    elif words not in section(page, anchor):
        yield f"{place} doesn't have {words!r}"


def main(_: list[str]) -> int:
    readers: dict[str, list[list[str]]] = tomllib.loads(QUESTIONS.read_text())
    pages = reached(STEPS)
    faults = [
        f"{reader}: {question} {fault}"
        for reader, questions in readers.items()
        for question, place, words in questions
        for fault in faults_of(place, words, pages)
    ]
    faults += [
        f"{reader}: {len(questions)} questions, and not {COUNT}"
        for reader, questions in readers.items()
        if len(questions) != COUNT
    ]
    return told("questions", sum(map(len, readers.values())), faults)
