"""Reads the definitions of all specs/ folders: name, line, comment and text.

scripts/pages/citations.py finds what cites them, scripts/pages/matrix.py makes them the rows of docs/definitions.csv.
"""
from __future__ import annotations

import re
from collections.abc import Iterator
from functools import cache
from pathlib import Path

Key = tuple[Path, str]  # the file and the name of a definition
ROOT = Path(__file__).resolve().parents[2]
CRATES = ROOT / "crates"

PUBLIC = re.compile(r"^\s*(?:abbrev pub|unfoldable pub|pub record|pub data|pub)\s+([^\s:({]+)")
NO_DEFINITION = ("pub mod", "pub use")
NUMBER = re.compile(r"abbrev pub (\w+) : ℕ\s+\1 = [\d_]+")  # a constant
SOURCE = re.compile(r"\(((?:[^()]|\([^()]*\))*?(?:SUBSET-026-3|\bown\b)(?:[^()]|\([^()]*\))*)\)")


class Definition:
    """A public definition of a specs/ file: where it stands, the comment above it, and its text without comments."""

    def __init__(self, path: Path, name: str, line: int, comment: str, text: str) -> None:
        self.path, self.name, self.line, self.comment, self.text = path, name, line, comment, text

    def key(self) -> tuple[Path, str]:
        return (self.path, self.name)

    def is_claim(self) -> bool:
        """Something that holds or doesn't, as against a value or a type of data."""
        claims = r"(?:Is|Are|Has|Keeps|Stops|Slows|Meets|Takes|Comes|Leaves|Needs|Reads|Appends|Begins|Law|In)[A-Z]"
        return "Type 0" in self.text and bool(re.match(claims, self.name))

    def is_data(self) -> bool:
        """A type of data."""
        return self.text.lstrip().startswith(("pub record", "pub data")) and not self.is_claim()

    def constructors(self) -> list[str]:
        """The constructors of a `data`."""
        if not self.text.lstrip().startswith("pub data"):
            return []
        return re.findall(r"^\s+([A-Za-z_]\w*)\s*:", self.text, re.M)


def crates_with_libraries(top: Path = ROOT) -> Iterator[tuple[str, list[str]]]:
    """The crates in the order of crates.txt, each with the libraries that it stands on."""
    for line in (top / "crates.txt").read_text().splitlines():
        name, colon, below = line.partition("#")[0].partition(":")
        if colon:
            yield name.split()[0], below.split()


@cache
def crates() -> list[str]:
    """The crates in the order of crates.txt."""
    return [name for name, _ in crates_with_libraries()]


def spec_files(crate: str) -> Iterator[Path]:
    """The files of a crate's specs/ folder in the order of Lib.antt."""
    library = CRATES / crate / "specs" / "Lib.antt"
    if not library.exists():
        return
    for line in library.read_text().splitlines():
        found = re.match(r"pub mod (\w+)", line)
        if found:
            yield library.parent / (found.group(1) + ".antt")


@cache
def all_spec_files() -> list[Path]:
    """The spec files of all crates."""
    return [path for crate in crates() for path in spec_files(crate)]


def noted(path: Path) -> dict[str, str]:
    """What a file notes, a line each: `name: text`; lines with # are comments."""
    lines = [line for line in path.read_text().splitlines() if line and not line.startswith("#")]
    return dict(line.split(": ", 1) for line in lines)


@cache
def head_of(path: Path) -> str:
    """The comment at the head of a file."""
    head = []
    for line in path.read_text().splitlines():
        if not line.startswith("--"):
            break
        head.append(line[2:].strip())
    return " ".join(head)


def starts(lines: list[str]) -> Iterator[tuple[int, str]]:
    """(index, name) of each public definition; fields of a record are none."""
    depth = None
    for i, line in enumerate(lines):
        stripped, indent = line.strip(), len(line) - len(line.lstrip())
        if not stripped or stripped.startswith("--"):
            continue
        if depth is not None and indent > depth:
            continue
        depth = None
        found = PUBLIC.match(line)
        if found and not stripped.startswith(NO_DEFINITION):
            yield i, found.group(1)
            if stripped.startswith(("pub record", "pub data")):
                depth = indent


def comment_above(lines: list[str], i: int) -> str:
    """The lines of comment right above a line; a heading of a section is none of them."""
    found: list[str] = []
    while i > 0 and lines[i - 1].strip().startswith("--") and not lines[i - 1].strip().startswith("-- ----"):
        i -= 1
        found.insert(0, lines[i].strip()[2:].strip())
    return " ".join(found)


@cache
def definitions(path: Path) -> list[Definition]:
    """The public definitions of a file, in order. Numbers that follow one another under one comment share it."""
    lines = path.read_text().splitlines()
    found, made = list(starts(lines)), list[Definition]()
    ends = [i for i, _ in found[1:]] + [len(lines)]
    for (i, name), end in zip(found, ends):
        text = "\n".join(re.sub(r"--.*", "", line) for line in lines[i:end])
        comment = comment_above(lines, i)
        if not comment and made and all(NUMBER.fullmatch(each.strip()) for each in (made[-1].text, text)):
            comment = made[-1].comment
        made.append(Definition(path, name, i + 1, comment, text))
    return made


def source_of(comment: str) -> str | None:
    """The source that a comment names, as `SUBSET-026-3 3.13.7; own form` or `own`."""
    found = SOURCE.findall(comment)
    return found[-1].strip() if found else None


def source_from(path: Path, definition: Definition) -> str | None:
    """The source of a definition: what its comment names, or the file's head where that is own and names no clause."""
    head = source_of(head_of(path))
    return source_of(definition.comment) or (head if head and "SUBSET-026-3" not in head else None)


def meaning_of(comment: str) -> str:
    """The comment without its source."""
    text = re.sub(r"\s+", " ", SOURCE.sub("", comment)).strip()
    return re.sub(r"\s+([.,:;])", r"\1", text).rstrip(".")
