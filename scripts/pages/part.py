"""A part of a page that a script writes: it is printed, put between its marks, or compared with what stands there, to
the byte."""
from __future__ import annotations

import itertools
import os
import sys
from dataclasses import dataclass
from pathlib import Path

from scripts.pages.specs import ROOT

SHOWN = 5  # of the lines that differ, so many are told


@dataclass(frozen=True)
class Part:
    """What stands between two marks of a page; with no second mark, up to the page's end."""

    name: str
    page: Path
    begin: str
    end: str
    writer: str  # the command that writes it

    def text(self) -> str:
        """The page as it is, with the ends of its lines."""
        return self.page.read_bytes().decode()

    def has_marks(self, text: str) -> bool:
        """Whether a page has both marks, once and in their order."""
        return text.count(self.begin) == 1 and (not self.end or self.end in text[text.index(self.begin) :])

    def written(self, text: str, part: str) -> str:
        """A page with the part anew."""
        start = text.index(self.begin) + len(self.begin)
        return text[:start] + "\n" + part + (text[text.index(self.end, start) :] if self.end else "")

    def write(self, part: str) -> None:
        """Puts the part into the page."""
        self.page.write_bytes(self.written(self.text(), part).encode())

    def faults(self, part: str) -> list[str]:
        """What is wrong with the page: its marks, or the first lines that aren't as they would be written."""
        page, text = self.page.relative_to(ROOT), self.text()
        if not self.has_marks(text):
            return [f"{page}: the marks where {self.writer} puts its part are gone, or doubled"]
        pairs = itertools.zip_longest(text.split("\n"), self.written(text, part).split("\n"))
        differ = [(number, *pair) for number, pair in enumerate(pairs, 1) if pair[0] != pair[1]]
        stale = f"stale, run {self.writer}"
        return [
            f"{page}:{number}: {stale}: has {shown(old, new)}, not {shown(new, old)}"
            for number, old, new in differ[:SHOWN]
        ]

    def checked(self, part: str, more: list[str]) -> int:
        """Tells what is wrong with the page, and more that is; the exit status."""
        return told(self.name, 1, self.faults(part) + more)

    def main(self, words: list[str], part: str, more: list[str]) -> int:
        """Prints, writes or checks the part, as the words say; the exit status."""
        if words == ["check"]:
            return self.checked(part, more)
        if words == ["write"]:
            self.write(part)
        elif words:
            print(f"{self.writer.split()[0]}: no such words: {' '.join(words)}", file=sys.stderr)
            return 2
        else:
            print(part, end="")
        return 0


def shown(line: str | None, other: str | None) -> str:
    """A line from a little before the place where another differs from it, for a message."""
    if line is None:
        return "no line"
    start = max(len(os.path.commonprefix([line, other or ""])) - 20, 0)
    return repr(("…" if start else "") + line[start : start + 60])


def told(name: str, count: int, faults: list[str]) -> int:
    """Tells faults, and how many of the things that were checked passed; the exit status."""
    for fault in faults:
        print(fault)
    print(f"{name}: {max(count - len(faults), 0)} passed, {len(faults)} failed")
    return int(bool(faults) or not count)
