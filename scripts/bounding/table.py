"""scripts/bounds.toml: what each loop of the machine code walks, how often that turns at most, and which clause says
so. A loop is known by its function, its number there, and its shape."""
from __future__ import annotations

import ast
import operator
import re
from collections.abc import Callable, Iterable, Iterator
from dataclasses import dataclass
from pathlib import Path
from typing import Any

import tomllib

from scripts.bounding.code import Refused
from scripts.bounding.flow import Loop
from scripts.bounding.library import Known
from scripts.bounding.work import Turns
from scripts.editing.functions import clauses_of, named
from scripts.pages.citations import contracts, sources
from scripts.pages.specs import definitions, spec_files

FIELD = re.compile(r"^\s+pub (\w+) :", re.M)
CONSTANT = re.compile(r"^(?:pub(?:\(crate\))? )?const (\w+): \w+ = (\d+);", re.M)
OPERATORS: dict[type, Callable[[int, int], int]] = {
    ast.Add: operator.add,
    ast.Sub: operator.sub,
    ast.Mult: operator.mul,
    ast.FloorDiv: operator.floordiv,
}
FUNCTIONS: dict[str, Callable[[int], int]] = {
    "halvings": lambda count: (count - 1).bit_length(),  # of so many, until one is left
    "digits": lambda count: count.bit_length(),  # binary ones
}


class Bad(Exception):
    """Something of the table that can't be read."""


@dataclass(frozen=True)
class Size:
    """How many of something there are at most, and the clause that says so, or what is missing."""

    most: int
    of: str
    clause: str = ""
    missing: str = ""


@dataclass(frozen=True)
class Walk:
    """A loop of the source: where it stands, what it walks, and how often it turns at most, as a formula of the sizes:
    each time that it is entered, or in a whole run of its function; and how often it calls functions, where that isn't
    at each turn, with the clause that says that. Where no clause says so, it says what is missing."""

    at: str
    of: str
    turns: str
    calls: str = ""
    calls_clause: str = ""
    clause: str = ""
    missing: str = ""
    in_run: bool = False


@dataclass(frozen=True)
class Outside:
    """A function that the library asks of a C compiler: what a call of it takes at most. Of one that isn't counted the
    calls are."""

    stack: int
    instructions: int = 0
    divisions: int = 0
    accesses: int = 0
    is_counted: bool = False


@dataclass(frozen=True)
class Row:
    """What the table says of a loop: its walk, and its shape."""

    walk: str
    shape: str


@dataclass
class Table:
    """All that the table has."""

    unbounded: list[str]  # the calls that have no bound
    freeing: list[str]  # those that may give memory back
    heap: list[str]  # the functions of a heap
    outside: dict[str, Outside]
    sizes: dict[str, Size]
    walks: dict[str, Walk]
    loops: dict[str, list[Row]]

    def turns(self, name: str, loop: Loop) -> Turns:
        """How often a loop of a function turns at most, or a refusal."""
        rows = self.loops.get(name, [])
        if loop.number >= len(rows) or rows[loop.number].shape != loop.shape:
            raise Refused(f"{name} has a loop that scripts/bounds.toml doesn't name: {loop.number}, {loop.shape}")
        walk = self.walks.get(rows[loop.number].walk)
        if walk is None:
            raise Refused(f"{name} has a loop of no known walk: {loop.number}, {rows[loop.number].walk}")
        calls = self.value(walk.calls) if walk.calls else None
        return Turns(self.value(walk.turns), calls, walk.in_run)

    def value(self, formula: str) -> int:
        """The value of a formula of the sizes."""
        return evaluated(ast.parse(formula, mode="eval").body, {name: size.most for name, size in self.sizes.items()})

    def unproved(self, functions: Iterable[str]) -> list[str]:
        """The walks of some functions, and the sizes in their formulas, that rest on no clause."""
        walks = {row.walk for name in functions for row in self.loops.get(name, [])} & self.walks.keys()
        sizes = {size for walk in walks for size in sizes_in(self.walks[walk].turns)} & self.sizes.keys()
        return sorted(
            [walk for walk in walks if self.walks[walk].missing] + [size for size in sizes if self.sizes[size].missing]
        )


def evaluated(tree: ast.expr, sizes: dict[str, int]) -> int:
    """The value of a formula of numbers and sizes, by OPERATORS and FUNCTIONS."""
    match tree:
        case ast.Constant(value=int(number)):
            return number
        case ast.Name(id=name) if name in sizes:
            return sizes[name]
        case ast.BinOp(left=left, op=op, right=right) if type(op) in OPERATORS:
            return OPERATORS[type(op)](evaluated(left, sizes), evaluated(right, sizes))
        case ast.Call(func=ast.Name(id=name), args=[argument], keywords=[]) if name in FUNCTIONS:
            return FUNCTIONS[name](evaluated(argument, sizes))
    raise Bad(f"no formula of sizes: {ast.unparse(tree)}")


def sizes_in(formula: str) -> set[str]:
    """The names in a formula."""
    return {each.id for each in ast.walk(ast.parse(formula, mode="eval")) if isinstance(each, ast.Name)}


def row_of(text: str) -> Row:
    """A row, as `WALK SHAPE`."""
    walk, _, shape = text.rpartition(" ")
    return Row(walk, shape)


def read(path: Path) -> Table:
    """The table of a file."""
    found: dict[str, Any] = tomllib.loads(path.read_text())
    try:
        return Table(
            found["unbounded"],
            found["freeing"],
            found["heap"],
            {name: Outside(**has) for name, has in found["outside"].items()},
            {name: Size(**has) for name, has in found["sizes"].items()},
            {name: Walk(**has) for name, has in found["walks"].items()},
            {name: [row_of(row) for row in rows] for name, rows in found["loops"].items()},
        )
    except (KeyError, TypeError) as why:
        raise Bad(f"{path.name}: {why}") from why


def clauses(crate: str) -> set[str]:
    """The clauses of a crate as the table names them: of its functions, and the fields of its definitions; and its
    constants with their values, which bound a `for`."""
    found = {f"{crate}::{name} = {n}" for path in sources(crate) for name, n in CONSTANT.findall(path.read_text())}
    for contract in [contract for path in sources(crate) for contract in contracts(path)]:
        found.add(named(contract))
        found |= {f"{named(contract)} {clause}" for clause, _ in clauses_of(contract) if clause}
    for path in spec_files(crate):
        for each in definitions(path):
            name = f"{crate}::{path.stem}.{each.name}"
            found |= {f"{name} {field}" for field in FIELD.findall(each.text)}
    return found


def clause_faults(table: Table) -> Iterator[str]:
    """The clauses that the table names and that aren't there, and the walks with neither a clause nor a reason."""
    rows: dict[str, Size | Walk] = {**table.sizes, **table.walks}
    cited = [(name, each.clause) for name, each in rows.items() if each.clause]
    cited += [(name, walk.calls_clause) for name, walk in table.walks.items() if walk.calls_clause]
    known = set().union(*map(clauses, {clause.partition("::")[0] for _, clause in cited}))
    for name, clause in cited:
        if clause not in known:
            yield f"{name}: there is no clause {clause}"
    for name, each in rows.items():
        if not each.clause and not each.missing:
            yield f"{name}: it has neither a clause nor what is missing"


def row_faults(table: Table, functions: dict[str, Known]) -> Iterator[str]:
    """The loops of functions that the table doesn't name, and the rows whose loop is gone."""
    for name, known in sorted(functions.items()):
        rows, loops = table.loops.get(name, []), known.loops()
        for number, loop in enumerate(loops):
            row = rows[number] if number < len(rows) else None
            if row is None or row.shape != loop.shape:
                was = f", where a row has {row.shape}" if row else ""
                yield f"{name}: no row for loop {number}, {loop.shape}{was}"
            elif row.walk not in table.walks:
                yield f"{name}: loop {number} is of no known walk: {row.walk}"
        for row in rows[len(loops) :]:
            yield f"{name}: the loop of a row is gone: {row.walk} {row.shape}"
    for name in sorted(table.loops.keys() - functions.keys()):
        yield f"{name}: no bounded call runs it, so the loops of its rows are gone"
    used = {row.walk for rows in table.loops.values() for row in rows}
    for walk in sorted(table.walks.keys() - used):
        yield f"{walk}: no loop is of this walk"


def rows_anew(table: Table, functions: dict[str, Known]) -> Iterator[str]:
    """The rows that the table should have: each with its walk where its function has as many loops of its shape as
    before, else with a question mark and the walks that loops of its shape have."""
    by_shape: dict[str, set[str]] = {}
    for rows in table.loops.values():
        for row in rows:
            by_shape.setdefault(row.shape, set()).add(row.walk.removeprefix("? "))
    for name, known in sorted(functions.items()):
        loops, rows = known.loops(), table.loops.get(name, [])
        if not loops:
            continue
        yield f'"{name}" = ['
        for loop in loops:
            alike = [row.walk for row in rows if row.shape == loop.shape]
            here = [each for each in loops if each.shape == loop.shape]
            if len(alike) == len(here):
                walk = alike[here.index(loop)]
            else:
                walk = "? " + "|".join(sorted(by_shape.get(loop.shape, set())))
            yield f'    "{walk} {loop.shape}",'
        yield "]"
