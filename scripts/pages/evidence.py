"""Finds what shows a definition: a worked case that the prover computes, and the test that scripts/shown-by.txt names
for it."""
from __future__ import annotations

import re
from collections import Counter, defaultdict
from collections.abc import Iterator
from pathlib import Path
from typing import Any

from scripts.pages import specs
from scripts.pages.citations import Contract, Graph, blanked, cited_in, closing, imports
from scripts.pages.specs import CRATES, Key

LEMMA = re.compile(r"^(?:unfoldable |abbrev )?(?:pub )?([a-z_]\w*) :", re.M)
CLAIM = re.compile(r"≡|\b(?:Is|Are|Has|Keeps|Stops|Slows|Meets|Takes|Comes|Leaves|Needs|Begins)[A-Z]")
TEST = re.compile(r"(#\[test\]\s*(?:#\[[^\n]*\]\s*)*)?\bfn\s+(\w+)")
CALL = re.compile(r"(?<![.\w])(?<!fn )(?:(\w+)::)?(\w+)\(")
SHOWN_BY = specs.ROOT / "scripts" / "shown-by.txt"
# Its cases draw conclusions from promises, and name much that they don't show; docs/WRONG-DEFINITIONS.md names them.
CONCLUSIONS = "sdm_command_cases"


def blocks(text: str) -> Iterator[tuple[str, str]]:
    """(name, text) of each lemma and helper of a file of cases."""
    found = list(LEMMA.finditer(text))
    for match, following in zip(found, [*found[1:], None]):
        yield match.group(1), text[match.start() : following.start() if following else len(text)]


def closure(names: set[str], bodies: dict[str, str]) -> set[str]:
    """The names with those that their bodies mention, over and over."""
    seen, rest = set(names), list(names)
    while rest:
        for word in set(re.findall(r"\w+", bodies[rest.pop()])) & bodies.keys() - seen:
            seen.add(word)
            rest.append(word)
    return seen


class Cases:
    """The worked cases of all files proofs/*Cases.antt, by the definitions that they speak of."""

    def __init__(self, graph: Graph) -> None:
        self.by_definition: defaultdict[Key, list[tuple[Any, str]]] = defaultdict(list)
        for crate in [each for each in specs.crates() if each != CONCLUSIONS]:
            for path in sorted((CRATES / crate / "proofs").glob("*Cases.antt")):
                self.read(crate, path, graph)

    def read(self, crate: str, path: Path, graph: Graph) -> None:
        text = blanked(path.read_text(), "--")
        names, aliases = imports(text)
        bodies = dict(blocks(text))
        for name, body in bodies.items():
            claim = body.split(f"\n{name} ")[0].split("\nunfolding")[0]
            if not CLAIM.search(claim):
                continue
            said = cited_in(claim, names, aliases)
            helpers = closure(set(re.findall(r"\w+", claim)) & bodies.keys() - {name}, bodies)
            known = set().union(said, *(cited_in(bodies[h], names, aliases) for h in helpers))
            for key in known:
                rank = (key not in said, len(known), len(claim))
                self.by_definition[graph.names.get(key, key)].append((rank, f"{crate}::{path.stem}.{name}"))

    def of(self, key: Key) -> str | None:
        """The case that speaks most directly of a definition."""
        found = sorted(self.by_definition[key])
        return f"case `{found[0][1]}`" if found else None


def is_result(definition: str, clause: str) -> bool:
    """Whether a clause says, with no condition, that what a function answers or leaves is the value of a definition."""
    answered = r"(?:\w+ )?(?:result|into|self)(?:\.\w+)*"
    return bool(re.match(rf"{answered} ≡ \(?{re.escape(definition)}(?![\w'])", clause))


class Tests:
    """The tests of all crates, by the functions that they call themselves; and those that scripts/shown-by.txt
    names."""

    def __init__(self, graph: Graph) -> None:
        self.functions, self.tests = defaultdict(list), defaultdict(set)
        for contract in graph.contracts:
            if contract.is_function():
                self.functions[contract.crate()].append(contract)
        for crate in specs.crates():
            alone = Counter(contract.name for contract in self.functions[crate])
            for tester, paths in files_of_tests(crate):
                for name, text in tests_of(paths):
                    calls = set(CALL.findall(text))
                    for contract in self.functions[crate]:
                        if is_called(contract, text, calls, alone[contract.name] == 1):
                            self.tests[contract].add(f"{tester}::{name}")
        self.named = specs.noted(SHOWN_BY)

    def of(self, key: Key) -> str | None:
        """The test that is named for a definition."""
        test = self.named.get(name_of(key))
        return f"test `{test}`" if test else None

    def faults(self, graph: Graph) -> Iterator[str]:
        """The lines of scripts/shown-by.txt that name no definition, or no test of a function whose result that is."""
        keys = {name_of(key): key for key in graph.definitions}
        for name, test in self.named.items():
            if name not in keys:
                yield f"scripts/shown-by.txt: there is no definition {name}"
            elif not any(test in self.tests[contract] for contract in results(graph, keys[name])):
                yield f"scripts/shown-by.txt: {test} is no test of a function whose result a clause says to be {name}"


def name_of(key: tuple[Path, str]) -> str:
    """How a definition is named in scripts/shown-by.txt."""
    return f"{key[0].relative_to(specs.ROOT).as_posix()} {key[1]}"


def results(graph: Graph, key: tuple[Path, str]) -> Iterator[Contract]:
    """The functions whose result a clause says to be the value of a definition."""
    for contract, clauses in graph.citers[key]:
        if contract.is_function() and any(word == "ensures" and is_result(key[1], text) for word, text in clauses):
            yield contract


def body(text: str, at: int) -> int:
    """Where the body of a function begins, of which the signature is read up to a place: past its clauses."""
    begins = text.index("{", at)
    clause = text[at:begins].rsplit("\n", 1)[-1].split()
    return body(text, closing(text, begins)) if clause[:1] in (["requires"], ["ensures"]) else begins


def files_of_tests(crate: str) -> Iterator[tuple[str, list[Path]]]:
    """Where the tests of a crate stand, by the crates that hold them: it itself, the crate of tests over it, and, in a
    crate of tests over several, the file of its name."""
    for tester in (crate, f"{crate}_tests"):
        source = CRATES / tester / "src"
        yield tester, [source / "tests.rt", *sorted((source / "tests").glob("*.rt"))]
    for path in sorted(CRATES.glob(f"*_tests/src/tests/{crate.removeprefix('sdm_')}.rt")):
        yield path.parents[2].name, [path]


def tests_of(paths: list[Path]) -> Iterator[tuple[str, str]]:
    """(name, text with that of its helpers) of each test of these files."""
    bodies, tests = {}, []
    for path in paths:
        if path.exists():
            text = blanked(path.read_text(), "//")
            for match in TEST.finditer(text):
                bodies[match.group(2)] = text[match.start() : closing(text, body(text, match.end()))]
                tests += [match.group(2)] if match.group(1) else []
    for name in tests:
        yield name, " ".join(bodies[helper] for helper in sorted(closure({name}, bodies)))


def is_called(contract: Contract, text: str, calls: set[tuple[str, str]], is_alone: bool) -> bool:
    """Whether a text, with its calls by a path, calls a function so, or as a method whose name no other function of the
    crate has, of a type that the text names."""
    if (contract.owner, contract.name) in calls:
        return True
    is_method = bool(contract.owner) and f".{contract.name}(" in text
    return is_method and is_alone and bool(re.search(rf"\b{contract.owner}\b", text))
