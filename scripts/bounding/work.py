"""The heaviest path through a call: the most instructions that it runs, or divisions, accesses to memory, calls of one
function. A loop that turns so often runs as many times its heaviest way from an entry back to one, and then once its
heaviest way from an entry to where it is left and on from there. Where it calls less often than it turns, so many of
its ways back may call, and the others are the heaviest ones without a call. Each call returns, and an inner loop stands
for all its turns."""
from __future__ import annotations

from collections.abc import Callable, Mapping
from dataclasses import dataclass, field, replace

from scripts.bounding.code import Instruction, Refused
from scripts.bounding.flow import Loop, Part
from scripts.bounding.library import Known, Library

Count = Callable[[Instruction], int]
COUNTS: dict[str, Count] = {
    "instructions": lambda each: 1,
    "divisions": lambda each: int(each.is_division()),
    "accesses": lambda each: int(each.is_access()),
}


@dataclass(frozen=True)
class Turns:
    """How often a loop turns at most, which is how often it comes back to an entry, and how often it calls functions
    where that isn't at each turn: each time that it is entered, or in a whole run of its function."""

    most: int
    calls: int | None = None
    is_in_run: bool = False


@dataclass(frozen=True)
class Weights:
    """What each instruction of a function weighs by itself, what the function weighs that it calls, and the calls that
    no path may have."""

    own: list[int]
    called: list[int]
    barred: frozenset[int] = frozenset()

    def at(self, k: int) -> int:
        return self.own[k] + self.called[k]

    def without_callees(self) -> "Weights":
        return replace(self, called=[0] * len(self.own))


Bounds = Callable[[str, Loop], Turns]  # of a loop of a function
Ends = Mapping[int, int]  # where a path may end, with the most that what is behind it weighs


@dataclass
class Paths:
    """The paths through a function, by the turns of its loops. What loops weigh that are bounded for a whole run is
    kept by their numbers."""

    known: Known
    turns: Bounds
    in_run: dict[int, int] = field(default_factory=dict)

    def most(self, own: list[int], callees: list[int]) -> int:
        """The most that a run of the function weighs, by what its instructions weigh and what they lead to. Behind a
        jump to another function that runs in its place."""
        code, body = self.known.function.code, self.known.body
        called = [weight if each.is_call() else 0 for each, weight in zip(code, callees, strict=True)]
        ends = {k: 0 for k in body.nodes if not body.after[k]}
        ends |= {k: callees[k] for k in body.nodes if code[k].is_jump() and code[k].callee}
        found = self.heaviest(body, Weights(own, called), ends)
        if found is None:
            raise Refused(f"{self.known.function.name} never ends")
        return found + sum(self.in_run.values())

    def heaviest(self, part: Part, weights: Weights, ends: Ends) -> int | None:
        """The most that a path weighs from an entry of a part to an end, with what is behind that; none where no path
        leads to one."""
        best: dict[int, int] = {}
        for group in part.groups:
            behind = {}
            for k in group - weights.barred:
                ways = [best[to] for to in part.after[k] - group if to in best]
                ways += [ends[k]] if k in ends else []
                if ways:
                    behind[k] = max(ways)
            if group in part.loops:
                most = self.of_loop(part.loops[group], weights, behind)
            else:
                most = max((weights.at(k) + behind[k] for k in behind), default=None)
            if most is not None:
                best |= dict.fromkeys(group, most)
        return max((best[k] for k in part.entries if k in best), default=None)

    def of_loop(self, loop: Loop, weights: Weights, ends: Ends) -> int | None:
        """The most that a loop weighs each time that it is entered, with what is behind it."""
        turns = self.turns(self.known.function.name, loop)
        back, turning = dict.fromkeys(loop.back, 0), 0
        calling = turns.most if turns.calls is None else min(turns.calls, turns.most)
        if turns.calls is not None:
            turning += turns.calls * max(weights.called[k] for k in loop.nodes)
            weights = weights.without_callees()
            calls = frozenset(k for k in loop.nodes if self.known.function.code[k].is_call())
            turning += (turns.most - calling) * (self.heaviest(loop, replace(weights, barred=calls), back) or 0)
        turning += calling * (self.heaviest(loop, weights, back) or 0)
        left = self.heaviest(loop, weights, ends)
        if left is not None and turns.is_in_run:
            self.in_run[loop.number] = max(turning, self.in_run.get(loop.number, 0))
            turning = 0
        return None if left is None else turning + left


@dataclass
class Work:
    """What is counted of a library's functions, by the turns of their loops. A function from elsewhere weighs what is
    given for it, or nothing."""

    library: Library
    turns: Bounds
    count: Count
    outside: dict[str, int] = field(default_factory=dict)
    found: dict[str, int] = field(default_factory=dict)

    def of(self, name: str) -> int:
        """The most that a run of a function weighs; no function may recur."""
        if name in self.library.outside:
            return self.outside.get(name, 0)
        if name not in self.found:
            known = self.library.must_know(name)
            own = [self.of_instruction(each) for each in known.function.code]
            callees = [self.of(each.callee) if each.callee else 0 for each in known.function.code]
            self.found[name] = Paths(known, self.turns).most(own, callees)
        return self.found[name]

    def of_instruction(self, each: Instruction) -> int:
        """What an instruction weighs by itself."""
        if each.is_repeated:
            raise Refused(f"an instruction repeats itself: {each.name} {each.operands}")
        return self.count(each)
