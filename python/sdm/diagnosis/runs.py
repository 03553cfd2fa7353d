"""Runs of differences: rows that differ one after the other in the same way, so that no fault hides behind another's.

A column's differences beyond the tolerances are cut where rows agree in between and where a deviation jumps. Places
that deviate over the same rows are one run. Where the input is known, places of another target are another run, and a
word is in the run of the places from which it follows; else it is a run of its own.
"""

from bisect import bisect_left, bisect_right
from collections.abc import Callable, Iterable, Mapping, Sequence
from dataclasses import dataclass, field
from fractions import Fraction

from sdm.laboratory.comparison import Allowed, Difference, shown
from sdm.laboratory.rows import COLUMNS, LIMITS, UNITS
from sdm.laboratory.texts import number

MOST_AGREEING = 5  # rows in a run that agree, one after the other
JUMP = Fraction(3, 10)  # of a deviation: what ends a run, where it is beyond twice the tolerance too
ALIKE, ALIKE_MM = Fraction(1, 100), 5  # how far the deviations of two columns may be apart that are told as alike
SHARED = Fraction(7, 10)  # of the rows of two columns that are one run
SIDES = {"mm": ("early", "late"), "km/h": ("low", "high"), "ds": ("early", "late")}

COLUMNS_BY_WORTH = ["ceiling", *(name for name in COLUMNS if name not in UNITS)]  # a word may follow from a ceiling

ColumnStretch = list[Difference]  # of one column, in the order of the rows


@dataclass(frozen=True)
class Run:
    """Rows, counted from 1, that differ in the same way: for each column its differences, and those of the words that
    follow from them."""

    stretches: dict[str, ColumnStretch]
    words: dict[str, ColumnStretch] = field(default_factory=dict)

    @property
    def numbers(self) -> list[int]:
        """The rows that differ."""
        return sorted({each.row for found in self.stretches.values() for each in found})

    @property
    def first(self) -> int:
        return self.numbers[0]

    @property
    def last(self) -> int:
        return self.numbers[-1]

    @property
    def column(self) -> str:
        """The column that it is named by."""
        return next(iter(self.stretches))

    @property
    def farthest(self) -> Difference:
        """The greatest deviation of the first column; of a word the first difference."""
        return max(self.stretches[self.column], key=lambda each: each.apart)

    @property
    def kind(self) -> tuple[object, ...]:
        """What runs of the same kind share."""
        return tuple((name, kind_of(found[0])) for name, found in self.stretches.items())


def signed(each: Difference) -> Fraction | None:
    """The recording's value less the row's, where both are numbers."""
    return None if each.deviation is None else Fraction(each.got - each.due)


def kind_of(each: Difference) -> object:
    """What differences of a run share beside their column: of words both values, of numbers on which side one is."""
    return (each.due is None, each.got is None) if each.column in UNITS else (each.due, each.got)


class Joints:
    """How differences hang together: which rows are compared, what is allowed, and what is known of each difference."""

    def __init__(
        self, compared: Sequence[int], allowed: Allowed, of: Callable[[Difference], object] = lambda each: None
    ) -> None:
        """`compared` are the rows that have a line, from 1; `of` says what a place is of, a target."""
        self.compared, self.allowed, self.of = compared, allowed, of

    def stretches(self, found: Sequence[Difference]) -> list[ColumnStretch]:
        """The differences of a column as stretches, which may lie among one another, as those of two targets do."""
        differing = [each.row for each in found]
        made: list[ColumnStretch] = []
        open_ones: dict[object, list[ColumnStretch]] = {}  # by their kind, those that may go on
        for each in found:
            kind = (kind_of(each), self.of(each))
            going_on = [
                stretch
                for stretch in open_ones.get(kind, [])
                if self.agreeing(differing, stretch[-1].row, each.row) <= MOST_AGREEING
            ]
            near = [stretch for stretch in going_on if not is_jump(stretch, each, self.allowed)]
            if near:
                max(near, key=lambda stretch: stretch[-1].row).append(each)
            else:
                made.append([each])
                going_on.append(made[-1])
            open_ones[kind] = going_on
        return made

    def before(self, row: int) -> int:
        """The row that is compared before one, 0 before the first one."""
        at = bisect_left(self.compared, row)
        return self.compared[at - 1] if at > 0 else 0

    def agreeing(self, differing: Sequence[int], before: int, row: int) -> int:
        """How many rows between two agree."""
        return sum(
            sign * (bisect_left(rows, row) - bisect_right(rows, before))
            for sign, rows in ((1, self.compared), (-1, differing))
        )


def is_jump(stretch: ColumnStretch, each: Difference, allowed: Allowed) -> bool:
    """Whether a deviation is another one than the last ones lead to."""
    last = [by for by in map(signed, stretch[-2:]) if by is not None]
    now = signed(each)
    if now is None or not last:
        return False
    tolerance = Fraction(2 * allowed[UNITS[each.column]])
    most = max(tolerance, JUMP * max(abs(now), abs(last[-1])), 2 * abs(last[-1] - last[0]))
    led = 2 * last[-1] - last[0] if len(last) == 2 else last[-1]
    return abs(now - last[-1]) > most and abs(now - led) > most


def is_shared(one: ColumnStretch, other: ColumnStretch) -> bool:
    """Whether two columns deviate over much the same rows."""
    if kind_of(one[0]) != kind_of(other[0]) or one[0].row > other[-1].row or other[0].row > one[-1].row:
        return False
    rows, others = {each.row for each in one}, {each.row for each in other}
    return len(rows & others) >= SHARED * len(rows | others)


def runs_of(
    beyond: Iterable[Difference], joints: Joints, follows: Callable[[Difference], bool] = lambda each: False
) -> list[Run]:
    """The runs of the differences beyond the tolerances, in the order of their rows.

    `follows` says of a difference whether it is a word that the recording's own places lead to."""
    columns: dict[str, list[Difference]] = {}
    for each in sorted(beyond, key=lambda each: each.row):
        columns.setdefault(each.column, []).append(each)
    runs = runs_of_places({name: columns[name] for name in LIMITS if name in columns}, joints)
    words = [name for name in COLUMNS_BY_WORTH if name in columns]
    led = [each for name in words for each in columns[name] if follows(each)]
    within = put(runs, sorted(led, key=lambda each: each.row), joints)
    for name in words:
        rest = [each for each in columns[name] if each not in within]
        runs += [Run({name: each}) for each in joints.stretches(rest)]
    return sorted(runs, key=lambda run: (run.first, run.last))


def runs_of_places(columns: Mapping[str, list[Difference]], joints: Joints) -> list[Run]:
    """The runs of the five places."""
    runs: list[Run] = []
    for name, found in columns.items():
        for stretch in joints.stretches(found):
            beside = [
                run for run in runs if name not in run.stretches and is_shared(run.stretches[run.column], stretch)
            ]
            if beside:
                beside[0].stretches[name] = stretch
            else:
                runs.append(Run({name: stretch}))
    return runs


def put(runs: list[Run], led: Sequence[Difference], joints: Joints) -> set[Difference]:
    """Puts words that follow from places into the runs of these, and with them those of the rows behind their ends, as
    long as one of the row before is held there: those that are in a run."""
    within = set()
    held: dict[int, Run] = {}  # by the row
    for each in led:
        around = [run for run in runs if run.first <= each.row <= run.last and run.column in UNITS]
        run = around[0] if around else held.get(joints.before(each.row))
        if run is not None:
            run.words.setdefault(each.column, []).append(each)
            held[each.row] = run
            within.add(each)
    return within


def told(run: Run, speeds: Mapping[int, Fraction] | None = None) -> str:
    """A run in a line; `speeds` are those of its rows in km/h, where they are known."""
    rows = f"rows {run.first} to {run.last}" if run.first < run.last else f"row {run.first}"
    parts, alike = [], list[str]()
    (head, stretch), *more = run.stretches.items()
    parts.append(column_told(head, stretch, speeds))
    for name, other in more:
        if is_alike(stretch, other):
            alike.append(name)
        else:
            parts.append(column_told(name, other, None))
    if alike:
        parts.insert(1, f"{', '.join(alike)} likewise")
    parts += [word_told(name, found, run.last) for name, found in run.words.items()]
    count = len(run.numbers)
    apart = run.last - run.first + 1
    return f"{rows}: {'; '.join(parts)}" + (f" ({count} of these rows differ)" if count < apart else "")


def word_told(name: str, found: ColumnStretch, last: int) -> str:
    """In how many rows a word follows from places, and up to where it is held on behind them."""
    held = f", up to row {found[-1].row}" if found[-1].row > last else ""
    return f"{name} follows in {len(found)}{held}"


def extremes(stretch: ColumnStretch) -> tuple[Fraction, Fraction]:
    """The least and the greatest deviation of a stretch."""
    by = [signed(each) or Fraction(0) for each in stretch]
    return min(by), max(by)


def is_alike(one: ColumnStretch, other: ColumnStretch) -> bool:
    """Whether two columns deviate so nearly alike that it is told once."""
    pairs = zip(extremes(one), extremes(other))
    return all(abs(a - b) <= max(Fraction(ALIKE_MM), ALIKE * abs(a)) for a, b in pairs)


def column_told(name: str, stretch: ColumnStretch, speeds: Mapping[int, Fraction] | None) -> str:
    """How a column differs along a stretch."""
    first = stretch[0]
    if signed(first) is None:
        return f"{name} is {shown(first.due)}, in the recording {shown(first.got)}" + other_values(stretch)
    unit, (least, most) = UNITS[name], extremes(stretch)
    sides = SIDES[unit]
    if least < 0 < most:
        return f"{name} {amount(-least, unit)} {sides[0]} to {amount(most, unit)} {sides[1]}"
    side = sides[most > 0]
    near, far = sorted((abs(least), abs(most)))
    if is_steady(near, far):
        return f"{name} {amount(far, unit)} {side}"
    return f"{name} {amount(near, unit)} to {amount(far, unit)} {side}{growth(stretch, speeds)}"


def other_values(stretch: ColumnStretch) -> str:
    """That a place which is on one side alone has other values on further rows."""
    return " at first" if len({(each.due, each.got) for each in stretch}) > 1 else ""


def is_steady(least: Fraction, most: Fraction) -> bool:
    """Whether deviations are told as one."""
    return most - least <= Fraction(1, 50) * most


def amount(value: Fraction, unit: str) -> str:
    """A deviation as it is read best."""
    if unit == "mm" and value >= 1000:
        return f"{number(round(value / 1000, 1))} m"
    return f"{number(round(value, 3), 3)} {unit}"


def growth(stretch: ColumnStretch, speeds: Mapping[int, Fraction] | None) -> str:
    """Whether the deviation goes with the speed of the rows."""
    pairs = [(speeds[each.row], each.apart) for each in stretch if each.row in speeds] if speeds else []
    if len(pairs) < 3:
        return ""
    with_speed = correlation([(float(a), float(b)) for a, b in pairs])
    return ", growing with speed" if with_speed > 0.9 else ", falling with speed" if with_speed < -0.9 else ""


def correlation(pairs: Sequence[tuple[float, float]]) -> float:
    """How far two quantities lie on a line, from -1 to 1; 0 where one of them doesn't change."""
    means = [sum(each) / len(pairs) for each in zip(*pairs)]
    shifted = [(a - means[0], b - means[1]) for a, b in pairs]
    spread = sum(a * a for a, _ in shifted) * sum(b * b for _, b in shifted)
    return float(sum(a * b for a, b in shifted) / spread**0.5) if spread > 0 else 0.0
