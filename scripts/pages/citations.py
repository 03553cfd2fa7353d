"""Finds what cites each definition of the specs/ folders: other definitions, the contracts of functions, cases and
tests.

A name in a file stands for the definition that the file imports under it, or defines itself. The tables of
docs/definitions.csv (scripts/pages/matrix.py) and the list of scripts/house show believed stand on this.
"""
from __future__ import annotations

import re
from collections import defaultdict
from collections.abc import Iterable, Iterator
from functools import cache
from pathlib import Path
from typing import Any

from scripts.pages import specs
from scripts.pages.specs import CRATES, Key

IMPORT = re.compile(r"\buse\s+Rattle\.([\w.]+?)(?:\.\{([^}]*)\}|\s+as\s+(\w+))\s*;?")
WORD = re.compile(r"[A-Za-z_][\w'-]*(?:\.[A-Za-z_][\w'-]*)*")
FUNCTION = re.compile(r"\b(pub(?:\([^)]*\))?\s+)?(?:const\s+)?fn\s+(\w+)")
SCOPE = re.compile(r"\b(impl|trait)\b(?:\s*<[^{;]*?>)?\s+([^{;]*?)\s*\{")
CLAUSE = re.compile(r"\s*(requires|ensures|decreases)\b\*?\s*(\w+)?\s*\{")
GHOSTS = {
    "Value": "the value",
    "view": "the value",
    "inverse": "the value",
    "coded": "the value",
    "invariant": "the invariant",
}
GHOST = re.compile(r"\bghost\s+(\w+)\s*=\s*\{")
STRUCT = re.compile(r"\bstruct\s+(\w+)[^{;]*\{")
GHOST_FIELD = re.compile(r"\bghost\s+\w+\s*:\s*\{")


class Contract:
    """What a function or a type promises: its clauses as (kind, text), and where it stands in its file."""

    def __init__(
        self,
        path: Path,
        text: str,
        owner: str,
        name: str,
        public: bool,
        clauses: list[tuple[str, str]],
        span: tuple[int, int],
    ) -> None:
        self.path, self.text, self.owner, self.name = path, text, owner, name
        self.public, self.clauses, self.span = public, clauses, span

    def crate(self) -> str:
        return self.path.relative_to(CRATES).parts[0]

    def parameters(self) -> set[str]:
        """The names of a function's parameters: in its clauses they stand for themselves."""
        signature = re.split(r"\b(?:requires|ensures|decreases)\b", self.body(), maxsplit=1)[0]
        return set(re.findall(r"(\w+)\s*:", signature)) if self.is_function() else set()

    def is_function(self) -> bool:
        return not (self.clauses and self.clauses[0][0] == "ghost")

    def is_law(self) -> bool:
        """A function without a body's work: its contract alone counts."""
        return self.name.startswith("law_")

    def body(self) -> str:
        """The text of a function."""
        return self.text[self.span[0] : self.span[1]]

    def shown(self) -> str:
        """The function, or what a type means, as the document names it."""
        if self.name in GHOSTS and not self.is_function():
            return f"{GHOSTS[self.name]} of `{self.crate()}::{self.owner}`"
        inner = f"{self.owner}::{self.name}" if self.owner else self.name
        return f"`{self.crate()}::{inner}`"


def blanked(text: str, mark: str) -> str:
    """The text with spaces in place of comments and of what stands in quotes, so that places stay."""
    pattern = re.compile(r'r#"[\s\S]*?"#|"(?:\\[\s\S]|[^"\\])*"|b\'[{}"]\'|' + re.escape(mark) + r"[^\n]*")
    return pattern.sub(lambda found: re.sub(r"[^\n]", " ", found.group(0)), text)


def closing(text: str, start: int) -> int:
    """The index just past the brace that closes the one at `start`."""
    depth = 0
    for i in range(start, len(text)):
        if text[i] == "{":
            depth += 1
        elif text[i] == "}":
            depth -= 1
            if depth == 0:
                return i + 1
    return len(text)


def target_of(path: str) -> tuple[Path, str | None] | None:
    """The (file, name) that an imported path means, for a name of it: the name is None where the path is a module's."""
    parts = path.split(".")
    if len(parts) < 3 or parts[1] not in ("specs", "proofs"):
        return None
    crate = CRATES / parts[0]
    if parts[2] == "declared":
        rest = parts[3:-1] if parts[-1] in ("TheVariants", "TheInside") else parts[3:]
        return crate / "src" / ("/".join(rest[:-1]) + ".rt"), rest[-1]
    return crate / parts[1] / ("/".join(parts[2:]) + ".antt"), None


def imports(text: str) -> tuple[Any, ...]:
    """name -> (file, name) of the names that a text imports, and alias -> file or (file, type) of its modules."""
    names, aliases = {}, {}
    for path, listed, alias in IMPORT.findall(text):
        found = target_of(path)
        if not found:
            continue
        file, declared = found
        if alias:
            aliases[alias] = (file, declared)
        for name in re.split(r"[\s,]+", listed.strip()):
            if name:
                names[name] = (file, declared or name)
    return names, aliases


@cache
def imported(path: Path) -> tuple[Any, ...]:
    """What a file imports."""
    return imports(path.read_text())


def cited_in(
    text: str, names: dict[str, tuple[Path, str]], aliases: dict[str, tuple[Path, None] | tuple[Path, str]]
) -> set[tuple[Path, str]]:
    """The (file, name) of every name in a text that an import or the file itself explains."""
    found = {key for name, key in names.items() if "◌" in name and f" {name.strip('◌')} " in text}
    for word in WORD.findall(text):
        parts = word.split(".")
        if parts[0] in aliases and len(parts) > 1:
            file, declared = aliases[parts[0]]
            found.add((file, declared or parts[1]))
        elif parts[0] in names:
            found.add(names[parts[0]])
    return found


def contract_at(text: str, start: int) -> tuple[list[tuple[str, str]], int]:
    """The clauses from `start`, the end of a function's name, up to its body, and where that begins."""
    clauses, i, depth = [], start, 0
    while i < len(text):
        match = CLAUSE.match(text, i) if depth == 0 else None
        if match:
            end = closing(text, match.end() - 1)
            clauses.append((match.group(1), text[match.end() : end - 1].strip()))
            i = end
            continue
        if text[i] in "([":
            depth += 1
        elif text[i] in ")]":
            depth -= 1
        elif depth == 0 and text[i] in "{;":
            break
        i += 1
    return clauses, i


def scopes(text: str) -> Iterator[tuple[int, int, str]]:
    """(start, end, owner) of every impl and trait."""
    for match in SCOPE.finditer(text):
        words = re.sub(r"<[^<>]*>", "", re.sub(r"<[^<>]*>", "", match.group(2))).split()
        owner = words[words.index("for") + 1] if "for" in words else words[0].rstrip(":")
        yield match.start(), closing(text, match.end() - 1), owner


def contracts(path: Path) -> Iterator[Contract]:
    """The contracts of a source file: those of its functions, and what its types mean."""
    text = blanked(path.read_text(), "//")
    inside = list(scopes(text))

    def owner_at(place: int) -> str:
        owners = [owner for start, end, owner in inside if start <= place < end]
        return owners[-1] if owners else ""

    for match in FUNCTION.finditer(text):
        clauses, body = contract_at(text, match.end())
        end = closing(text, body) if text[body : body + 1] == "{" else body
        yield Contract(
            path, text, owner_at(match.start()), match.group(2), bool(match.group(1)), clauses, (match.start(), end)
        )
    for match in GHOST.finditer(text):
        end = closing(text, match.end() - 1)
        clauses = [("ghost", text[match.end() : end - 1])]
        yield Contract(path, text, owner_at(match.start()), match.group(1), True, clauses, (match.start(), end))
    for struct in STRUCT.finditer(text):
        fields = (struct.end() - 1, closing(text, struct.end() - 1))
        for match in GHOST_FIELD.finditer(text, *fields):
            # a field that is kept for a fact of the others: the fact, and that it is shown in one way at most
            end = text.index("\n", match.start())
            yield Contract(
                path,
                text,
                struct.group(1),
                "invariant",
                True,
                [("ghost", text[match.end() : end])],
                (match.start(), end),
            )


def sources(crate: str) -> Iterator[Path]:
    """The source files of a crate without its tests."""
    for path in sorted((CRATES / crate / "src").rglob("*.rt")):
        if "tests" not in path.relative_to(CRATES / crate / "src").with_suffix("").parts:
            yield path


class Graph:
    """Which definitions, contracts and types name which."""

    def __init__(self) -> None:
        self.definitions: dict[Key, specs.Definition] = {}
        self.names: dict[Key, Key] = {}
        self.own: defaultdict[Path, dict[str, Key]] = defaultdict(dict)  # file -> the names that it defines itself
        for path in specs.all_spec_files():
            for definition in specs.definitions(path):
                self.definitions[definition.key()] = definition
                for name in [definition.name, *definition.constructors()]:
                    self.names[(path, name)] = definition.key()
                    self.own[path][name] = (path, name)
        self.below = {key: self.cited_by(key) for key in self.definitions}
        self.above = defaultdict(list)
        for key, cited in self.below.items():
            for other in cited:
                if other in self.definitions and other != key:
                    self.above[other].append(key)
        self.contracts = [c for crate in specs.crates() for path in sources(crate) for c in contracts(path)]
        self.citers = defaultdict(list)
        for contract in self.contracts:
            for key, clauses in self.cited_by_contract(contract).items():
                self.citers[key].append((contract, clauses))

    def resolved(self, text: str, path: Path) -> set[tuple[Path, str]]:
        """The definitions and types that a text of a file names."""
        names, aliases = imported(path)
        return {self.names.get(key, key) for key in cited_in(text, names | self.own[path], aliases)}

    def cited_by(self, key: tuple[Path, str]) -> set[tuple[Path, str]]:
        return self.resolved(blanked(self.definitions[key].text, "--"), key[0])

    def cited_by_contract(self, contract: Contract) -> defaultdict[Key, list[tuple[str, str]]]:
        """key -> the clauses of a contract that name it."""
        found = defaultdict(list)
        parameters = contract.parameters()
        for kind, text in contract.clauses:
            for key in self.resolved(text, contract.path):
                if key[1] not in parameters:
                    found[key].append((kind, text))
        return found

    def way_up(self, key: tuple[Path, str]) -> list[tuple[Path, str]]:
        """The nearest definitions from `key` up, over those that cite it, that a contract cites: all of the least
        distance. A law counts where nothing else does."""
        for laws_count in (False, True):
            level, seen = [key], {key}
            while level:
                cited = [k for k in level if any(laws_count or not c.is_law() for c, _ in self.citers[k])]
                if cited:
                    return cited
                level = sorted({up for k in level for up in self.above[k]} - seen)
                seen.update(level)
        return []

    def reached(self, roots: Iterable[Key]) -> set[Key]:
        """Everything that the roots name, and what that names in turn: definitions and types."""
        seen, open_keys = set(roots), list(roots)
        while open_keys:
            for other in self.below.get(open_keys.pop(), ()):
                if other not in seen:
                    seen.add(other)
                    open_keys.append(other)
        return seen
