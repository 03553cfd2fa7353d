"""Misreadings of PROFILE, each as a hypothesis: a rule of the model with another one in its place.

The sentence of a misreading says what another computer would do. Those of one chapter of PROFILE stand in one module.
"""

from collections.abc import Callable
from dataclasses import dataclass
from typing import Any

from sdm.diagnosis.model import Reread

Make = Callable[[Any], Any]  # makes the other rule of the one that stands there


@dataclass(frozen=True)
class Misreading:
    """A rule that is read otherwise: its name, what the other computer does, the rules of the model that change, and
    how many misreadings it is made of: of two that look alike in a recording the one of fewer stands first."""

    name: str
    told: str
    rules: tuple[Reread, ...]
    parts: int = 1


class Misreadings(dict[str, Misreading]):
    """Misreadings by their names."""

    def add(self, told: str, *places: tuple[Any, str], parts: int = 1) -> Callable[[Make], Make]:
        """Has what a function makes stand at some places of the model; the function's name is the misreading's."""

        def taken(make: Make) -> Make:
            self.put(make.__name__, told, make, *places, parts=parts)
            return make

        return taken

    def put(self, name: str, told: str, make: Make, *places: tuple[Any, str], parts: int = 1) -> None:
        """The same with a name."""
        assert name not in self, f"two misreadings are called {name}"
        self[name] = Misreading(name, told, tuple(Reread(owner, at, make) for owner, at in places), parts)


def always(rule: Any) -> Make:
    """Has a rule stand there, whatever stood there."""
    return lambda _: rule
