"""`check` (CERTIFICATES, FORMATS "`check`"): the text of a certificate line by line, and whether its marks hold."""
import re
from bisect import bisect_left, bisect_right
from collections.abc import Iterator, Sequence
from math import inf
from typing import NoReturn

from sdm_evidence.model.certificates import Claim, Mark, until_it_works
from sdm_evidence.model.decelerations import Brake, refuse_slopes
from sdm_evidence.model.outcome import Outcome, Refused
from sdm_evidence.model.records import read_int
from sdm_evidence.model.units import GRAINS_PER_CM

DIGITS = re.compile(rb"[0-9]{1,38}")
MOST_ENERGY, MOST_PLACE, MOST_SLOPE = 10**32, 10**18 - 1, 10**15
UPPER, START, SLOPE = (1, 20_000_000), (0, 10_200_000), (-MOST_SLOPE, MOST_SLOPE)
ENERGY = "an energy, from 0 on"
Range = tuple[int, int] | str
# fmt: off
FORMS: dict[bytes, tuple[Range, ...]] = {  # FORMATS "The text of a certificate": the ranges of a line's numbers
    b"map": ((100, 11_730), (1, 10), (1, 2_000)),
    b"claim": ((0, 100_000_000), (-6 * 10**16, 6 * 10**16), (0, 8_100_000), (0, 300), (0, 40), (0, 300), (0, 300),
               (0, 54_000_000_000_000_000), (1, 4_000)),
    b"mark": ((-MOST_PLACE, MOST_PLACE), ENERGY),
}
# fmt: on


def number_of(field: bytes, ends: Range) -> int | None:
    """FORMATS "The text of a certificate": the number of a field within its ends, or None."""
    if isinstance(ends, str):
        number = int(field) if DIGITS.fullmatch(field) else None
        return number if number is not None and number <= MOST_ENERGY else None
    number = read_int(field)
    return number if number is not None and ends[0] <= number <= ends[1] else None


class Lines:
    """The lines of a text, taken one after the other. LF alone ends a line, and the last one may do without."""

    def __init__(self, data: bytes) -> None:
        lines = data.split(b"\n")
        self.lines, self.number = lines if lines[-1] else lines[:-1], 0  # of the line that was taken last

    def refuse(self) -> NoReturn:
        """FORMATS "`check`": a line that isn't of the form due, or that is wanting."""
        raise Outcome(7, f"bad event {self.number}: line")

    def are_left(self) -> bool:
        return self.number < len(self.lines)

    def take(self, word: bytes, ranges: Sequence[Range]) -> list[int]:
        """The numbers of the next line, which must have this word and a number in each range."""
        self.number += 1
        if self.number > len(self.lines):
            self.refuse()
        first, *fields = self.lines[self.number - 1].split(b",")
        if first != word or len(fields) != len(ranges):
            self.refuse()
        numbers = [number for field, ends in zip(fields, ranges) if (number := number_of(field, ends)) is not None]
        if len(numbers) < len(ranges):
            self.refuse()
        return numbers

    def take_form(self, word: bytes) -> list[int]:
        return self.take(word, FORMS[word])


def rise(numbers: Sequence[int]) -> bool:
    return all(a < b for a, b in zip(numbers, numbers[1:]))


def read_map(lines: Lines) -> Brake:
    """FORMATS "The text of a certificate": the map, as slopes of a brake."""
    q, bands, segments = lines.take_form(b"map")
    uppers = lines.take(b"uppers", [UPPER] * (bands - 1)) if bands > 1 else []
    if not rise(uppers):
        lines.refuse()
    starts, slopes = [], []
    for _ in range(segments):
        start, *each = lines.take(b"seg", [START] + [SLOPE] * bands)
        starts.append(start)
        slopes.append(tuple(each))
        if starts[0] != 0 or not rise(starts[-2:]):
            lines.refuse()
    borders = tuple(start * GRAINS_PER_CM for start in starts[1:])
    return Brake("written", q, tuple(uppers), borders, tuple(slopes))


def read_claim(lines: Lines) -> tuple[Claim, list[Mark]]:
    """FORMATS "The text of a certificate": a claim, and its marks."""
    *numbers, count = lines.take_form(b"claim")
    return Claim(*numbers), [Mark(*lines.take_form(b"mark")) for _ in range(count)]


def is_accepted(brake: Brake) -> bool:
    """CERTIFICATES "The map": no slope is too weak, and in no band they are too varied."""
    try:
        refuse_slopes(brake)
    except Refused:
        return False
    return True


def bands_of(brake: Brake, mark: Mark, after: Mark) -> list[int]:
    """The bands that hold the energies of both marks; a band holds those of both its borders."""
    ends = [0, *map(brake.square, brake.uppers), inf]
    energies = mark.energy, after.energy
    return [band for band, (low, high) in enumerate(zip(ends, ends[1:])) if all(low <= e <= high for e in energies)]


def slopes_between(brake: Brake, band: int, mark: Mark, after: Mark) -> set[int]:
    """The slopes of a band in the cells of which a part lies strictly between two marks. Where both are at one place,
    it is none or one, and the way is 0."""
    stretches = brake.slopes[bisect_right(brake.borders, mark.place) : bisect_left(brake.borders, after.place) + 1]
    return {slopes[band] for slopes in stretches}


def takes_enough(brake: Brake, band: int, mark: Mark, after: Mark) -> bool:
    """CERTIFICATES "When marks hold": one slope on the way, which takes at least the energy that is lost."""
    slopes, lost = slopes_between(brake, band, mark, after), mark.energy - after.energy
    return len(slopes) <= 1 and 27 * sum(slopes) * (after.place - mark.place) >= lost


def is_next(brake: Brake, mark: Mark, after: Mark) -> bool:
    """CERTIFICATES "When marks hold": from one mark to the next."""
    if mark.place > after.place or mark.energy < after.energy:
        return False
    return any(takes_enough(brake, band, mark, after) for band in bands_of(brake, mark, after))


def hold(brake: Brake, claim: Claim, marks: list[Mark]) -> bool:
    """CERTIFICATES "When marks hold"."""
    V_bec, D_bec = until_it_works(claim)
    first, last = marks[0], marks[-1]
    return (
        first.place >= claim.front + D_bec
        and first.energy >= brake.square(V_bec)
        and all(is_next(brake, mark, after) for mark, after in zip(marks, marks[1:]))
        and last.energy == 0
        and last.place <= claim.svl
    )


def check_lines(data: bytes) -> Iterator[str]:
    """FORMATS "`check`": an answer to each claim, up to a line that isn't of the form due."""
    lines = Lines(data)
    brake = read_map(lines)
    accepted = is_accepted(brake)
    while lines.are_left():
        claim, marks = read_claim(lines)
        yield f"{claim.time},{'yes' if accepted and hold(brake, claim, marks) else 'no'}\n"
