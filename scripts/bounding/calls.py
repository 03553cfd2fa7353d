"""The bounds of the calls of a library."""
from __future__ import annotations

from collections.abc import Iterator
from dataclasses import dataclass, field

from scripts.bounding.code import Refused
from scripts.bounding.library import Known, Library, Stack
from scripts.bounding.table import Outside, Table
from scripts.bounding.work import COUNTS, Count, Work


@dataclass
class Bounds:
    """What a call takes at most, or why one of these isn't bounded."""

    call: str
    stack: Stack | None = None
    counts: dict[str, int] = field(default_factory=dict)  # of instructions, divisions, accesses
    outside: dict[str, int] = field(default_factory=dict)  # of the calls of functions from elsewhere
    unproved: list[str] = field(default_factory=list)  # the walks that rest on no clause
    refused: list[str] = field(default_factory=list)


def calls_of(name: str) -> Count:
    """Counts the calls of a function."""
    return lambda each: int(each.callee == name)


def weight(outside: Outside, kind: str) -> int:
    """What a call of a function from elsewhere weighs of a kind."""
    return int(getattr(outside, kind))


def bounds_of(call: str, library: Library, table: Table) -> Bounds:
    """The bounds of a call."""
    found = Bounds(call)
    counts: dict[str, tuple[Count, dict[str, int]]] = {
        kind: (count, {name: weight(each, kind) for name, each in table.outside.items()})
        for kind, count in COUNTS.items()
    }
    try:
        reached = library.reached(call)
        found.stack = library.stack(call)
        found.unproved = table.unproved(reached)
        for kind, (count, outside) in counts.items():
            found.counts[kind] = Work(library, table.turns, count, outside).of(call)
        for name in reached:
            if name in library.outside and not (name in table.outside and table.outside[name].is_counted):
                found.outside[name] = Work(library, table.turns, calls_of(name)).of(call)
        found.refused += heap_faults(call, library, table)
    except Refused as why:
        found.refused.append(str(why))
    return found


def heap_faults(call: str, library: Library, table: Table) -> Iterator[str]:
    """The ways of a call to the heap. One that frees may give memory back."""
    may = ["rattle_dealloc"] if call in table.freeing else []
    for way in library.ways_from(call):
        if way[-1] in table.heap and way[-1] not in may:
            yield "the heap: " + " > ".join(way)


def bounded(library: Library, table: Table, declared: list[str]) -> list[Bounds]:
    """The bounds of all declared calls that the library has but the opening."""
    return [bounds_of(call, library, table) for call in declared if call not in table.unbounded]


def run_by(library: Library, calls: list[str]) -> dict[str, Known]:
    """The functions of the library that calls may run, as far as they are known."""
    found: dict[str, Known] = {}
    for call in calls:
        try:
            found |= {name: library.known[name] for name in library.reached(call) if name in library.known}
        except Refused:
            continue  # told with the bounds of the call
    return found
