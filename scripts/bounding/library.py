"""The functions of a library, each with its frame and its loops or why it is refused, and who calls whom."""
from __future__ import annotations

from collections.abc import Iterator
from dataclasses import dataclass, field
from pathlib import Path

from scripts.bounding.code import Function, Refused
from scripts.bounding.flow import Loop, Part, body, followers
from scripts.bounding.frames import Frame, frame_of
from scripts.bounding.objects import Object, objects_of


@dataclass
class Known:
    """A function of which the frame and the loops are known."""

    function: Function
    frame: Frame
    body: Part

    def loops(self) -> list[Loop]:
        """Its loops in the order of their numbers."""
        return sorted(self.body.all_loops(), key=lambda loop: loop.number)


@dataclass
class Stack:
    """The most bytes of stack below a caller's frame, and the functions that take them: each with what it has taken
    where it calls the next one."""

    depth: int
    path: list[tuple[str, int]]


@dataclass
class Library:
    """All functions by their names, those that are refused with the reason, and those from elsewhere with the stack
    that each may take."""

    known: dict[str, Known] = field(default_factory=dict)
    refused: dict[str, str] = field(default_factory=dict)
    outside: dict[str, int] = field(default_factory=dict)

    def add(self, path: Path, *members: str) -> None:
        """Takes the functions of an object, or of an archive's objects, all or some. A name that is there twice is
        refused, whichever is meant."""
        with objects_of(path, *members) as found:
            for each in map(Object, found):
                for function in each.functions:
                    self.add_function(function, each)

    def add_function(self, function: Function, of: Object) -> None:
        name = function.name
        if name in self.known or name in self.refused:
            self.known.pop(name, None)
            self.refused[name] = f"two functions are named {name}"
            return
        try:
            after = followers(function, of.targets(function))
            self.known[name] = Known(function, frame_of(function, after), body(function, after))
        except Refused as reason:
            self.refused[name] = str(reason)

    def must_know(self, name: str) -> Known:
        """A function of the library, or a refusal."""
        if name in self.refused:
            raise Refused(self.refused[name])
        if name not in self.known:
            raise Refused(f"{name} is called, and is nowhere")
        known = self.known[name]
        if known.frame.indirect is not None:
            raise Refused(f"{name} calls what no symbol names, at {known.frame.indirect:#x}")
        return known

    def called_by(self, name: str) -> list[str]:
        """The functions that one calls, or to which it jumps."""
        return [] if name in self.outside else sorted(self.must_know(name).frame.calls)

    def ways_from(self, root: str) -> Iterator[tuple[str, ...]]:
        """A way to each function that a call may reach, nearest first; a refusal where one isn't known."""
        seen, ways = {root}, list[tuple[str, ...]]([(root,)])
        for way in ways:
            yield way
            for name in self.called_by(way[-1]):
                if name not in seen:
                    seen.add(name)
                    ways.append((*way, name))

    def reached(self, root: str) -> list[str]:
        """The functions that a call may run, in the order of their names."""
        return sorted(way[-1] for way in self.ways_from(root))

    def must_not_recur(self, root: str) -> None:
        """A refusal where a call may come back to a function that hasn't ended."""
        done: set[str] = set()
        way: list[str] = []

        def visit(name: str) -> None:
            if name in way:
                raise Refused("recursion: " + " > ".join([*way[way.index(name) :], name]))
            if name not in done:
                way.append(name)
                for callee in self.called_by(name):
                    visit(callee)
                way.pop()
                done.add(name)

        visit(root)

    def stack(self, root: str) -> Stack:
        """The most stack that a call takes, with the path that takes it."""
        self.must_not_recur(root)
        found: dict[str, Stack] = {}

        def of(name: str) -> Stack:
            if name in self.outside:
                return Stack(self.outside[name], [(name, self.outside[name])])
            if name not in found:
                frame = self.must_know(name).frame
                below = [(depth, of(callee)) for callee, depth in sorted(frame.calls.items())]
                ways = [Stack(at + under.depth, [(name, at), *under.path]) for at, under in below]
                found[name] = max([Stack(frame.deepest, [(name, frame.deepest)]), *ways], key=lambda way: way.depth)
            return found[name]

        return of(root)
