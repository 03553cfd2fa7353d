"""The functions of a crate: what each is called here, in marks and by the prover, its clauses, and whom it calls."""
from __future__ import annotations

import re
from collections.abc import Collection, Iterator
from dataclasses import dataclass
from functools import cache, cached_property
from pathlib import Path

from scripts.pages import citations
from scripts.pages.citations import FUNCTION, SCOPE, Contract, closing, contract_at
from scripts.pages.specs import CRATES

ENSURES = re.compile(r"\bensures\*?\s+(\w*)\s*\{")
TYPE = re.compile(r"^(?:pub(?:\([^)]*\))? )?(?:struct|enum) (\w+)", re.M)
WORD = re.compile(r"(?<=\.)\w+(?=\s*(?:\(|::))|(?<![.\w])\w+")  # not the field of a value
QUALIFIER = re.compile(r"(\w+)\s*::\s*(?:<[^<>]*>\s*::\s*)?$")


@dataclass(frozen=True)
class Function:
    """A function of a crate."""

    file: str  # by its path in the crate
    contract: Contract
    trait: str  # of whose impl or text it is a method; empty for none
    module: str  # the file of the module that the prover takes it for one of

    @property
    def owner(self) -> str:
        return str(self.contract.owner)

    @property
    def name(self) -> str:
        return str(self.contract.name)

    @property
    def marked(self) -> str:
        """Its name in marks."""
        return named(self.contract)

    @property
    def path(self) -> str:
        """Its path below the crate, as the prover names it: a method of a trait's impl belongs to the type with the
        trait's words behind it."""
        trait = "" if self.trait == self.owner else re.sub(r"'\w+", "", self.trait)
        words = "".join(re.findall(r"\b[A-Za-z]\w+", trait))  # a parameter has one letter
        return "::".join(filter(None, [*modules(self.module), self.owner + words, self.name]))

    @property
    def lines(self) -> range:
        """The lines of its file that it has."""
        start, end = (line_at(self.contract, place) for place in self.contract.span)
        return range(start, end + 1)

    def has_body(self) -> bool:
        """Whether it isn't a method that a trait only declares."""
        return self.contract.text[self.body_start :][:1] == "{"

    @cached_property
    def body_start(self) -> int:
        """Where its clauses end."""
        text, start = self.contract.text, self.contract.span[0]
        head = FUNCTION.match(text, start)
        return int(contract_at(text, head.end() if head else start)[1])

    @cached_property
    def clauses(self) -> list[str]:
        """The names of the clauses that it ensures; one without a name is empty."""
        return [name for name, _ in clauses_of(self.contract)]

    @cached_property
    def words(self) -> set[tuple[str, str]]:
        """The words of its body, each with the type or module before it, or with a dot where it follows one."""
        text, body, end = self.contract.text, self.body_start, self.contract.span[1]
        found = set()
        for word in WORD.finditer(text, body, end):
            before = text[max(body, word.start() - 120) : word.start()]
            qualifier = QUALIFIER.search(before)
            found.add((qualifier[1] if qualifier else "." if before.rstrip().endswith(".") else "", word[0]))
        return found

    def calls(self, other: "Function") -> bool:
        """Whether it may call another function, by the words of its body; what an operator calls isn't seen."""
        if not other.owner:
            qualifiers = {"", *modules(other.module)[-1:], "crate", "self", "super"}
        else:
            qualifiers = {".", other.owner, *(["Self"] if self.owner == other.owner else [])}
            qualifiers |= {*re.findall(r"\w+", other.trait)}
        return any((qualifier, other.name) in self.words for qualifier in qualifiers)


def named(contract: Contract) -> str:
    """A function as marks name it."""
    return "::".join(filter(None, [contract.crate(), contract.owner, contract.name]))


def clauses_of(contract: Contract) -> Iterator[tuple[str, int]]:
    """The clauses of a function that it ensures, each with its line; one without a name is empty."""
    for found in ENSURES.finditer(contract.body()):
        yield found.group(1), line_at(contract, contract.span[0] + found.start())


def line_at(contract: Contract, place: int) -> int:
    """The line of a place in a contract's file."""
    return int(contract.text.count("\n", 0, place)) + 1


def traits(text: str) -> Iterator[tuple[int, int, str]]:
    """(start, end, trait) of every impl of a trait, and of every trait."""
    for found in SCOPE.finditer(text):
        trait, is_impl, _ = found.group(2).partition(" for ")
        if is_impl or found.group(1) == "trait":
            yield found.start(), closing(text, found.end() - 1), re.split(r"[:\s]", trait.strip())[0]


def modules(file: str) -> list[str]:
    """The modules from the crate's root to that of a file."""
    parts = Path(file).with_suffix("").parts[1:]
    return list(parts[:-1] if parts[-1] in ("lib", "main", "mod") else parts)


def functions_in(folder: Path) -> list[Function]:
    """The functions of a crate, or of a copy of it, without its tests. A method that is no trait's belongs to the
    module of its type."""
    paths = [path for path in sorted((folder / "src").rglob("*.rt")) if "tests" not in path.with_suffix("").parts]
    files = {path: path.relative_to(folder).as_posix() for path in paths}
    homes = {name: files[path] for path in paths for name in TYPE.findall(path.read_text())}
    found = []
    for path, file in files.items():
        for contract in citations.contracts(path):
            if contract.is_function():
                inside = [trait for start, end, trait in traits(contract.text) if start <= contract.span[0] < end]
                trait = inside[-1] if inside else ""
                home = file if trait else homes.get(contract.owner, file)
                found.append(Function(file, contract, trait, home))
    return found


@cache
def functions(crate: str) -> list[Function]:
    """The functions of a crate without its tests."""
    return functions_in(CRATES / crate)


@cache
def below(crate: str) -> list[set[int]]:
    """For each function of a crate, by its place in the list, those of the crate that it calls, and these in turn."""
    every = functions(crate)
    calls = [{k for k, other in enumerate(every) if other is not each and each.calls(other)} for each in every]
    reached = []
    for k in range(len(every)):
        seen: set[int] = set()
        open_ = [k]
        while open_:
            fresh = calls[open_.pop()] - seen
            seen |= fresh
            open_ += fresh
        reached.append(seen)
    return reached


def by_mark(name: str, files: Collection[str] = ()) -> Function | None:
    """The function that a mark names. A crate may have several of a name: then one in these files, if one is."""
    found = [each for each in functions(name.partition("::")[0]) if each.marked == name]
    return min(found, key=lambda each: each.file not in files) if found else None
