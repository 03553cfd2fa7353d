"""Where each key of a TOML document stands: Python's reader tells none of the places of what it reads.

The text is one that Python's reader has accepted, so this reader checks nothing. A path is the names of keys and, of
lists, the indices from 0, as they lead to a value of the table.
"""
import re
from typing import NamedTuple

from sdm.findings.finding import TextPlace

KeyPath = tuple[str | int, ...]
BLANK = re.compile(r"(?:[ \t\r\n]|#[^\n]*)*")
KEY = re.compile(r'[ \t]*(?:"((?:[^"\\]|\\.)*)"|\'([^\']*)\'|([A-Za-z0-9_-]+))[ \t]*')
TEXT = re.compile(
    r'"""(?:[^"\\]|\\.|"{1,2}(?!"))*"{3,5}' r"|'''(?:[^']|'{1,2}(?!'))*'{3,5}" r'|"(?:[^"\\]|\\.)*"' r"|'[^']*'",
    re.DOTALL,
)
PLAIN = re.compile(r"[^,\]}#\r\n]*")


class At(NamedTuple):
    """Where a key begins, and where its value."""

    key: int
    value: int


class Places:
    """The places of all keys of a document, by their paths."""

    def __init__(self, text: str) -> None:
        self.text, self.at = text, 0
        self.found: dict[KeyPath, At] = {}
        self.counts: dict[KeyPath, int] = {}  # of the arrays of tables: how many tables so far
        self.read()

    def place(self, offset: int) -> TextPlace:
        """The line and the column of an offset."""
        before = self.text[:offset]
        return before.count("\n") + 1, offset - (before.rfind("\n") + 1) + 1

    def of_key(self, path: KeyPath) -> TextPlace | None:
        """Where a key stands, or else the nearest section around it that has a place."""
        while path and path not in self.found:
            path = path[:-1]
        return self.place(self.found[path].key) if path else None

    def of_value(self, path: KeyPath) -> TextPlace | None:
        return self.place(self.found[path].value) if path in self.found else self.of_key(path)

    def skip(self, pattern: re.Pattern[str]) -> re.Match[str]:
        """Goes past what the pattern matches here, which may be nothing."""
        found = pattern.match(self.text, self.at)
        assert found is not None, "the text is a document"
        self.at = found.end()
        return found

    def is_next(self, mark: str) -> bool:
        return self.text.startswith(mark, self.at)

    def read(self) -> None:
        """The whole document: headers, and keys with their values."""
        section: KeyPath = ()
        self.skip(BLANK)
        while self.at < len(self.text):
            section = self.header() if self.is_next("[") else self.key_and_value(section)
            self.skip(BLANK)

    def header(self) -> KeyPath:
        """`[a.b]` or `[[a.b]]`: the section that begins here."""
        begin, is_list = self.at, self.is_next("[[")
        self.at += 2 if is_list else 1
        names = self.names()
        self.at += 2 if is_list else 1
        path = self.resolved((), names)
        if is_list:
            index = self.counts.get(path, 0)
            self.counts[path] = index + 1
            self.found.setdefault(path, At(begin, begin))
            path += (index,)
        elif path in self.counts:
            path += (self.counts[path] - 1,)
        self.found.setdefault(path, At(begin, begin))
        return path

    def resolved(self, section: KeyPath, names: list[str]) -> KeyPath:
        """The path of names below a section; on the way, a list of tables stands for its last table."""
        path = section
        for name in names[:-1]:
            path += (name,)
            if path in self.counts:
                path += (self.counts[path] - 1,)
        return path + (names[-1],)

    def names(self) -> list[str]:
        """A dotted key."""
        found, more = [], True
        while more:
            key = self.skip(KEY)
            found.append(next(name for name in key.groups() if name is not None))
            more = self.is_next(".")
            self.at += more
        return found

    def key_and_value(self, section: KeyPath) -> KeyPath:
        """A key with its value; the section that goes on behind it is the same."""
        begin, names = self.at, self.names()
        self.at += 1  # =
        self.skip(BLANK)
        for count in range(1, len(names)):
            self.found.setdefault(section + tuple(names[:count]), At(begin, self.at))
        path = section + tuple(names)
        self.found[path] = At(begin, self.at)
        self.value(path)
        return section

    def value(self, path: KeyPath) -> None:
        if self.is_next("["):
            self.entries(path, "]")
        elif self.is_next("{"):
            self.entries(path, "}")
        elif self.is_next('"') or self.is_next("'"):
            self.skip(TEXT)
        else:
            self.skip(PLAIN)

    def entries(self, path: KeyPath, end: str) -> None:
        """The values of a list, or the keys of an inline table."""
        self.at += 1
        self.skip(BLANK)
        index = 0
        while not self.is_next(end):
            if end == "]":
                self.found[path + (index,)] = At(self.at, self.at)
                self.value(path + (index,))
                index += 1
            else:
                self.key_and_value(path)
            self.skip(BLANK)
            self.at += self.is_next(",")
            self.skip(BLANK)
        self.at += 1
