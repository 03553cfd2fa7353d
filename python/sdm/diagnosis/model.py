"""The model as the diagnosis takes it: the modules of `sdm.exact`, and the one place that has them read otherwise.

Its rules are functions and properties of its modules. A rule is read otherwise where another one stands in its place
for a while: `Reread` puts it there and takes it away again.
"""

from collections.abc import Callable, Iterator, Sequence
from contextlib import contextmanager
from dataclasses import dataclass
from typing import Any

from sdm.exact import (
    curves,
    data,
    decelerations,
    journey,
    limits,
    outcome,
    records,
    release,
    rows,
    speeds,
    triggers,
    units,
    words,
)

__all__ = [
    "Reread",
    "curves",
    "data",
    "decelerations",
    "journey",
    "limits",
    "outcome",
    "records",
    "release",
    "reread",
    "rows",
    "speeds",
    "triggers",
    "units",
    "words",
]


@dataclass(frozen=True)
class Reread:
    """Another reading of a rule: where the rule stands, its name there, and what makes the other one of it."""

    owner: Any
    name: str
    make: Callable[[Any], Any]


@contextmanager
def reread(rules: Sequence[Reread]) -> Iterator[None]:
    """Has the model read some rules otherwise, one over the other where they are of one rule."""
    before: list[tuple[Any, str, Any]] = []
    try:
        for each in rules:
            held = each.owner.__dict__[each.name]
            before.append((each.owner, each.name, held))
            setattr(each.owner, each.name, each.make(held))
        yield
    finally:
        for owner, name, held in reversed(before):
            setattr(owner, name, held)
