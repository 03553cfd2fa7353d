"""Units (PROFILE "Units"): places in grains, speeds in notches, times in ds; all of them whole numbers."""
from bisect import bisect_right
from collections.abc import Callable, Iterable, Sequence
from fractions import Fraction
from typing import Generic, NamedTuple, TypeVar, overload

GRAINS_PER_MM, GRAINS_PER_CM = 540_000_000, 5_400_000_000  # a centimetre is a cell
NOTCHES_PER_MM_S, NOTCHES_PER_KM_H = 54, 15_000
NOTCHES_PER_CM_S2_DS, GRAINS_PER_NOTCH_DS = 54, 1_000_000  # 1 cm/s² for 1 ds; a notch for 1 ds


Number = int | Fraction  # whole, and a fraction by exact curves and exact speeds
T = TypeVar("T")


@overload
def distance_at(speed: int, time: int) -> int:
    ...


@overload
def distance_at(speed: Number, time: int) -> Number:
    ...


def distance_at(speed: Number, time: int) -> Number:
    """PROFILE "Units": the grains that a speed in notches takes in a time in ds."""
    return speed * time * GRAINS_PER_NOTCH_DS


def printed(place: Number | None) -> int | None:
    """PROFILE "The row": a place in grains, or a fraction of them, rounded down to whole millimetres; None for none."""
    return None if place is None else int(place // GRAINS_PER_MM)


class Steps(NamedTuple, Generic[T]):
    """A value for each cell of the track: values[i] from the cell starts[i] on, and values[0] before it too."""

    starts: Sequence[int]
    values: Sequence[T]

    def lowest(self, first: int, last: int) -> T:
        """The lowest value in the cells from the first to the last, both included."""
        at_first, at_last = (max(bisect_right(self.starts, cell) - 1, 0) for cell in (first, last))
        return min(self.values[at_first : at_last + 1])  # type: ignore[type-var]  # where it is asked, they are numbers


def steps_of(starts: Iterable[int], value: Callable[[int], T]) -> Steps[T]:
    """The steps of a function of cells that changes at some of the starts and nowhere else."""
    pairs = [(start, value(start)) for start in sorted(starts)]
    return Steps(*zip(*(pair for i, pair in enumerate(pairs) if i == 0 or pair[1] != pairs[i - 1][1])))
