"""What is known of each definition of the specs/ folders: its source, its meaning, the contract that cites it most
directly, the claims that reach it, and the case or test that shows it right."""
from __future__ import annotations

import re
from collections.abc import Iterator
from dataclasses import dataclass
from pathlib import Path

from scripts.pages import specs
from scripts.pages.believed import CLAIMS, Believed
from scripts.pages.citations import Contract
from scripts.pages.evidence import Cases, Tests
from scripts.pages.specs import ROOT, Key, meaning_of, source_from


@dataclass(frozen=True)
class Row:
    """A definition as docs/definitions.csv has it; the fields are its columns."""

    name: str
    file: str
    meaning: str
    source: str  # as CLAUSES, simplified CLAUSES: .., or own
    contract: str  # the contract that cites it most directly
    claims: str  # the claims that reach it, with spaces between
    shown_by: str  # a case, a test, both, or nothing

    def has_clause(self) -> bool:
        """Whether it is meant as a clause of the standard, or simplified from one."""
        return self.source.startswith(("as ", "simplified "))

    def is_of(self, *claims: str) -> bool:
        """Whether one of these claims reaches it."""
        return not set(claims).isdisjoint(self.claims.split())


def clauses(text: str) -> str:
    """A source with each clause below the third level marked as to be compared with issue 3.6.0."""
    return re.sub(r"\b(\d+\.\d+\.\d+\.\d+(?:\.\d+)*)", r"\1*", text.replace("SUBSET-026-3 ", ""))


def kind(source: str) -> str:
    """Whether a definition is meant as the standard's, simplified from it, or the project's own; with its clauses, and
    what is own."""
    first, _, rest = source.partition(";")
    if "SUBSET-026-3" in first:
        rest = rest.strip().replace("own: ", "own, ")
        return f"simplified {clauses(first)}: {rest}" if rest else f"as {clauses(first)}"
    if "own" not in source.split():
        return source
    rest = " ".join(word for word in source.split() if word != "own")
    return f"own ({rest})" if rest else "own"


class Matrix:
    """The rows of all definitions."""

    def __init__(self) -> None:
        self.believed = Believed()
        self.graph = self.believed.graph
        self.cases, self.tests = Cases(self.graph), Tests(self.graph)

    def ranked(self, key: Key) -> list[Contract]:
        """The contracts that cite a definition, the most direct first."""
        order = {crate: i for i, crate in enumerate(specs.crates())}
        is_data = self.graph.definitions[key].is_data()
        answers = re.compile(rf"≡ \(?{re.escape(key[1])}\b")

        def rank(citer: tuple[Contract, list[tuple[str, str]]]) -> tuple[bool | int, ...]:
            contract, cited = citer
            ensured = [text for word, text in cited if word == "ensures"]
            ghost = all(word == "ghost" for word, _ in cited)
            return (
                contract.is_law(),
                not (is_data and contract.name == "Value"),
                ghost,
                not any(answers.search(text) for text in ensured),
                not ensured,
                not contract.public,
                min(len(text) for _, text in cited),
                order[contract.crate()],
            )

        return [contract for contract, _ in sorted(self.graph.citers[key], key=rank)]

    def is_claim(self, key: Key) -> bool:
        return self.graph.definitions[key].is_claim()

    def through(self, key: Key) -> Key | None:
        """The definition that a contract cites nearest to this one: itself, or one that stands on it, a claim last."""

        def rank(near: Key) -> tuple[bool, bool, int, Key]:
            return self.is_claim(near), near[0] != key[0], len(self.graph.citers[near]), near

        nearest = self.graph.way_up(key)
        return min(nearest, key=rank) if nearest else None

    def contract(self, key: Key) -> str:
        """The contract that cites a definition most directly, and how many others do."""
        through = self.through(key)
        if not through:
            return "none"
        found = self.ranked(through)
        if through != key:
            return f"{found[0].shown()} through `{through[1]}`"
        shown = list(dict.fromkeys(contract.shown() for contract in found))
        return shown[0] + (f" and {len(shown) - 1} more" if len(shown) > 1 else "")

    def case_above(self, key: Key) -> str | None:
        """A case of a definition that names this one, where that is a value too."""
        for up in sorted(self.graph.above[key]):
            found = None if self.is_claim(up) else self.cases.of(up)
            if found:
                return f"{found} through `{up[1]}`"
        return None

    def shown_by(self, key: Key) -> str:
        """What shows a definition right: a case of it and a test of it, or else a case of a value that names it."""
        shown = [each for each in (self.cases.of(key), self.tests.of(key)) if each]
        return "; ".join(shown) or self.case_above(key) or ""

    def claims(self, key: Key) -> str:
        """The claims that reach a definition."""
        reached = self.believed.reached
        return " ".join(claim.name for claim in CLAIMS if key[1] in reached[claim.name].get(key[0], ()))

    def row(self, path: Path, definition: specs.Definition) -> Row:
        key = definition.key()
        return Row(
            name=definition.name,
            file=path.relative_to(ROOT).as_posix(),
            meaning=meaning_of(definition.comment),
            source=kind(source_from(path, definition) or "none"),
            contract=self.contract(key),
            claims=self.claims(key),
            shown_by=self.shown_by(key),
        )

    def rows(self) -> list[Row]:
        """A row for each definition, in the order of crates.txt and of their files."""
        return [self.row(path, each) for path in specs.all_spec_files() for each in specs.definitions(path)]

    def uncited(self) -> list[Key]:
        """The definitions that no contract cites, nor reaches through others."""
        return [key for key in self.graph.definitions if not self.graph.way_up(key)]

    def faults(self) -> Iterator[str]:
        """Definitions without a source or a comment, and lines of scripts/shown-by.txt that name none."""
        for path in specs.all_spec_files():
            where = path.relative_to(ROOT).as_posix()
            for definition in specs.definitions(path):
                if not source_from(path, definition):
                    yield f"{where}:{definition.line}: {definition.name} has no source"
                if not meaning_of(definition.comment):
                    yield f"{where}:{definition.line}: {definition.name} has no comment"
        yield from self.tests.faults(self.graph)
