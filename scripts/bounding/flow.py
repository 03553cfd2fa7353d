"""Which instruction of a function may follow which, and its loops. A loop is a strongly connected part, with the
instructions by which it is entered, and its inner loops are what is strongly connected in it where no way leads back
to these. So a loop with several entries is one too."""
from __future__ import annotations

from collections.abc import Iterator, Mapping, Sequence
from dataclasses import dataclass, field
from hashlib import sha256
from typing import TypeVar

from scripts.bounding.code import ENDS, Function, Instruction, Refused

Ways = Mapping[int, frozenset[int]]


def followers(function: Function, by_table: dict[int, set[int]]) -> list[frozenset[int]]:
    """For each instruction, counted from 0, those that may follow it. `by_table` has where each jump may lead that goes
    by a table."""
    index = {each.at: k for k, each in enumerate(function.code)}
    found = []
    for k, each in enumerate(function.code):
        targets = {each.target} if each.target is not None else set()
        if each.is_jump() and each.is_indirect():
            targets = by_table.get(each.at, set())
            if not targets:
                raise Refused(f"{function.name} jumps where no table says, at {each.at:#x}")
        if not targets <= index.keys():
            raise Refused(f"{function.name} jumps into an instruction, at {each.at:#x}")
        to = {index[target] for target in targets}
        if goes_on(each):
            if k + 1 < len(function.code):
                to.add(k + 1)
            elif not (each.is_call() or each.is_padding()):  # that doesn't return, or behind what doesn't
                raise Refused(f"{function.name} runs past its end")
        found.append(frozenset(to))
    return found


def goes_on(each: Instruction) -> bool:
    """Whether the next instruction may follow one."""
    return each.name not in ENDS and (not each.is_jump() or each.is_condition())


@dataclass
class Part:
    """A part of a function: its instructions, those by which it is entered, the ways in it without those back to its
    entries, and what is strongly connected by these, the last ones first."""

    nodes: frozenset[int]
    entries: frozenset[int]
    after: Ways
    groups: list[frozenset[int]] = field(default_factory=list)
    loops: dict[frozenset[int], "Loop"] = field(default_factory=dict)

    def all_loops(self) -> Iterator["Loop"]:
        """All loops in it, inner ones too."""
        for loop in self.loops.values():
            yield loop
            yield from loop.all_loops()


class Loop(Part):
    """A loop. Its number counts the loops of its function, by the address at which they are entered. `back` are the
    instructions from which a way leads back to one of its entries."""

    number = 0
    shape = ""
    back: frozenset[int] = frozenset()


P = TypeVar("P", bound=Part)


def divided(part: P) -> P:
    """A part, with its loops found."""
    part.groups = list(groups(part.nodes, part.after))
    for group in part.groups:
        if len(group) == 1 and not any(k in part.after[k] for k in group):
            continue
        outside = {to for k in part.nodes - group for to in part.after[k]}
        entries = frozenset(group & (outside | part.entries))
        ways = {k: part.after[k] & group - entries for k in group}
        part.loops[group] = divided(Loop(group, entries, ways))
    return part


def groups(nodes: frozenset[int], after: Ways) -> Iterator[frozenset[int]]:
    """The strongly connected groups of nodes, each after all to which a way leads from it (Tarjan's algorithm)."""
    number: dict[int, int] = {}
    low: dict[int, int] = {}
    kept: list[int] = []
    open_nodes: set[int] = set()

    def begin(k: int) -> tuple[int, Iterator[int]]:
        number[k] = low[k] = len(number)
        kept.append(k)
        open_nodes.add(k)
        return k, iter(sorted(after[k]))

    for start in sorted(nodes):
        way = [begin(start)] if start not in number else []
        while way:
            k, rest = way[-1]
            to = next(rest, None)
            if to is None:
                way.pop()
                if way:
                    low[way[-1][0]] = min(low[way[-1][0]], low[k])
                if low[k] == number[k]:
                    group = frozenset(kept[kept.index(k) :])
                    del kept[-len(group) :]
                    open_nodes.difference_update(group)
                    yield group
            elif to not in number:
                way.append(begin(to))
            elif to in open_nodes:
                low[k] = min(low[k], number[to])


def body(function: Function, after: Sequence[frozenset[int]]) -> Part:
    """What a function may run, with its loops."""
    reached, rest = {0}, [0]
    while rest:
        for to in after[rest.pop()] - reached:
            reached.add(to)
            rest.append(to)
    part = divided(Part(frozenset(reached), frozenset({0}), {k: after[k] for k in reached}))
    for number, loop in enumerate(sorted(part.all_loops(), key=lambda loop: (min(loop.entries), -len(loop.nodes)))):
        loop.number = number
        loop.shape = shape_of(function, loop)
        loop.back = frozenset(k for k in loop.nodes if after[k] & loop.entries)
    return part


def shape_of(function: Function, loop: Loop) -> str:
    """What tells that a loop is still the one that somebody looked at: how many instructions it has, and a sum of their
    names; with several entries how many, too."""
    names = " ".join(function.code[k].name for k in sorted(loop.nodes))
    shape = f"{len(loop.nodes)}:{sha256(names.encode()).hexdigest()[:4]}"
    return shape if len(loop.entries) == 1 else f"{shape}/{len(loop.entries)}"
