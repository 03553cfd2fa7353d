"""Reads edits: what each changes, and what its file says that refuses it. docs/TRACES.md links them."""
from __future__ import annotations

import re
from dataclasses import dataclass
from functools import cached_property
from pathlib import Path

from scripts.pages.specs import CRATES, crates

FOLDERS = ("must-fail", "edits")
MARK = re.compile(r"^# refused-by: (.*)$", re.M)
PARTS = ("src/", "specs/", "proofs/")  # of a crate, where an edit may change a text


class Unfit(Exception):
    """Why an edit can't be applied."""


@dataclass(frozen=True)
class Refuser:
    """What refuses an edit: a clause of a function, or the function where the clause has no name."""

    function: str
    clause: str

    @property
    def crate(self) -> str:
        return self.function.partition("::")[0]

    def __str__(self) -> str:
        return f"{self.function} {self.clause}".strip()


@dataclass(frozen=True)
class Change:
    """A text of a file, by its path in the crate, and what is put in its place."""

    file: str
    old: str
    new: str


@dataclass(frozen=True)
class Edit:
    """An edit, by its crate and its file."""

    crate: str
    path: Path

    @property
    def name(self) -> str:
        return f"{self.crate}/{self.path.stem}"

    def is_for_rt(self) -> bool:
        """Whether `rt ci` tries it, too."""
        return self.path.parent.name == "must-fail"

    def is_for_rt_alone(self) -> bool:
        """Whether it is tried by `rt ci` alone, since no clause refuses it and its file names none."""
        return self.is_for_rt() and not self.marked()

    def marked(self) -> str:
        """What its file says that refuses it; nothing where it doesn't say."""
        found = MARK.search(self.path.read_text())
        return found.group(1).strip() if found else ""

    @cached_property
    def refuser(self) -> Refuser:
        """What refuses it by its file."""
        function, _, clause = self.marked().partition(" ")
        if not function:
            raise Unfit("its file has no line `# refused-by:`")
        return Refuser(function, clause)

    def mark(self, refuser: Refuser) -> None:
        """Writes what refuses it into its file."""
        text = MARK.sub("", self.path.read_text()).lstrip("\n")
        self.path.write_text(f"# refused-by: {refuser}\n{text}")

    @cached_property
    def changes(self) -> list[Change]:
        """What it changes, in the order of its file."""
        found, file, old = [], "", ""
        for line in self.path.read_text().splitlines():
            word, _, text = line.partition(":")
            text = text.removeprefix(" ")
            if word == "file":
                file = text.strip()
            elif word == "old":
                old = text
            elif word == "new":
                found.append(Change(file, old, text))
        if not found or not all(each.old and each.file.startswith(PARTS) for each in found):
            raise Unfit("it is no list of `file:`, `old:` and `new:` lines")
        return found

    def applied(self, folder: Path, inside: str = "") -> dict[str, str]:
        """The texts of the files of a crate that it changes, as they are then. An `old:` text that stands more than
        once in its file is that of a function, whose text is `inside`."""
        texts: dict[str, str] = {}
        for change in self.changes:
            if change.file not in texts:
                if not (folder / change.file).is_file():
                    raise Unfit(f"there is no file {change.file}")
                texts[change.file] = (folder / change.file).read_text()
            text, count = texts[change.file], texts[change.file].count(change.old)
            if count > 1 and text.count(inside) == inside.count(change.old) == 1:
                within = inside.replace(change.old, change.new)
                texts[change.file], inside = text.replace(inside, within), within
            elif count == 1:
                texts[change.file] = text.replace(change.old, change.new)
            else:
                raise Unfit(f"`{change.old.strip()}` is {count} times in {change.file}, and not once")
        if all(text == (folder / file).read_text() for file, text in texts.items()):
            raise Unfit("it changes nothing")
        return texts

    def apply(self, folder: Path, inside: str) -> None:
        """Applies it to a copy of its crate."""
        for file, text in self.applied(folder, inside).items():
            (folder / file).write_text(text)


def edits_of(crate: str) -> list[Edit]:
    """The edits of a crate, those that `rt ci` tries too first."""
    return [Edit(crate, path) for folder in FOLDERS for path in sorted((CRATES / crate / folder).glob("*.edit"))]


def all_edits() -> list[Edit]:
    """The edits of all crates, lowest first."""
    return [edit for crate in crates() for edit in edits_of(crate)]
