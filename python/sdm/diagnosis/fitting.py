"""How well a hypothesis fits: which cells it explains and which it breaks, and the number that fits best."""

from collections.abc import Sequence
from dataclasses import dataclass
from fractions import Fraction
from typing import Any

from sdm.laboratory.rows import UNITS

from sdm.diagnosis.numbers import Number, NumberValue
from sdm.diagnosis.scene import ABSENT, CELLS, NUMERIC, RuleCase, Cells, Look, Scene, predicted

ROUNDS = 6  # of the search for a number
BROKEN = 3  # how many cells that are explained a broken one outweighs
FAR = 3  # of the values far off: how many are gone on from
PROMISING = 0.2  # of the cells that differ: what a value must gain of them for a nearer one to be looked for
CLIMB_CM = 3200  # by how much a place is changed first, in the search for a better one
WIDE = Fraction(1, 20)  # of a change: how far the changes that rows ask for may be apart, in the first round


@dataclass(frozen=True)
class Fit:
    """A hypothesis with what it leaves: which cells agree, row by row, how many cells it explains and breaks, rows
    that it explains wholly and breaks, the greatest deviation in mm left in rows that it explains."""

    case: RuleCase
    agreeing: tuple[tuple[bool, ...], ...]
    explained: int
    broken: int
    rows: int
    rows_broken: int
    left_mm: Fraction

    @property
    def gain(self) -> int:
        """What it is worth: cells explained, less those broken."""
        return self.explained - BROKEN * self.broken

    @property
    def wrong(self) -> int:
        """How many cells it leaves that don't agree."""
        return sum(not each for row in self.agreeing for each in row)


@dataclass(frozen=True)
class Ground:
    """What hypotheses are judged from: a scene, a case that holds whatever else does, what it makes of the rows, and
    which cells agree by it."""

    scene: Scene
    case: RuleCase
    cells: tuple[Cells, ...]
    agreeing: tuple[tuple[bool, ...], ...]

    @property
    def wrong(self) -> int:
        """How many cells don't agree."""
        return sum(not each for row in self.agreeing for each in row)

    def part(self, numbers: Sequence[int]) -> "Ground":
        """The same of some rows, by their numbers from 0."""
        looks = [self.scene.looks[i] for i in numbers]
        cells = tuple(self.cells[i] for i in numbers)
        return Ground(self.scene.with_looks(looks), self.case, cells, tuple(self.agreeing[i] for i in numbers))


def ground_of(scene: Scene, case: RuleCase = RuleCase()) -> Ground | None:
    """The ground of a case; None where it can't be of these data."""
    cells = predicted(scene, case)
    if cells is None:
        return None
    agreeing = tuple(tuple(scene.agrees(look, each)) for look, each in zip(scene.looks, cells, strict=True))
    return Ground(scene, case, tuple(cells), agreeing)


def fit_of(ground: Ground, case: RuleCase) -> Fit | None:
    """How well a case fits on a ground; None where it changes nothing, or can't be of these data."""
    cells = predicted(ground.scene, ground.case.with_case(case))
    return None if cells is None or tuple(cells) == ground.cells else judged(ground, case, cells)


def judged(ground: Ground, case: RuleCase, cells: Sequence[Cells]) -> Fit:
    """What a case is worth by what it makes of the rows."""
    agreeing, explained, broken, rows, rows_broken, left = [], 0, 0, 0, 0, Fraction(0)
    for look, own, before in zip(ground.scene.looks, cells, ground.agreeing, strict=True):
        now = tuple(ground.scene.agrees(look, own))
        agreeing.append(now)
        explained += sum(after and not was for after, was in zip(now, before))
        broken += sum(was and not after for after, was in zip(now, before))
        if all(now) and not all(before):
            rows += 1
            left = max(left, *(deviation_mm(look, i, own[i]) for i in NUMERIC))
        rows_broken += all(before) and not all(now)
    return Fit(case, tuple(agreeing), explained, broken, rows, rows_broken, left)


def over(ground: Ground, fits: Sequence[Fit]) -> Fit:
    """What fits one upon the other are worth together, on the ground of the first one."""
    case, agreeing = RuleCase(), fits[-1].agreeing
    for fit in fits:
        case = case.with_case(fit.case)
    pairs = list(zip(ground.agreeing, agreeing, strict=True))
    explained = sum(after and not was for before, now in pairs for was, after in zip(before, now))
    broken = sum(was and not after for before, now in pairs for was, after in zip(before, now))
    rows = sum(all(now) and not all(before) for before, now in pairs)
    rows_broken = sum(all(before) and not all(now) for before, now in pairs)
    return Fit(case, agreeing, explained, broken, rows, rows_broken, max(fit.left_mm for fit in fits))


def deviation_mm(look: Look, i: int, value: Any) -> Fraction:
    """How far a place is from the recording's."""
    recorded = look.recorded[i]
    if UNITS[CELLS[i]] != "mm" or recorded is ABSENT or None in (value, recorded):
        return Fraction(0)
    return Fraction(abs(value - recorded))


def fitted(ground: Ground, number: Number, start: NumberValue | None = None) -> Fit | None:
    """The best value of a number on a ground; None where none changes anything that differs. `start` is one that was
    good on a part of it."""
    if number.choices:
        tried = [value for value in number.choices if value != number.given]
        fits = [fit for value in tried if (fit := fit_of(ground, RuleCase((), ((number.path, value),))))]
        chosen = max(fits, key=lambda fit: fit.gain, default=None)
        if chosen is None or isinstance(number.given, bool) or number.unit != "km/h":
            return chosen
        return max([chosen, *near(ground, number, chosen)], key=lambda fit: fit.gain)
    return solved(ground, number, start)


def near(ground: Ground, number: Number, chosen: Fit) -> list[Fit]:
    """The whole values beside one that was chosen."""
    ((_, value),) = chosen.case.numbers
    beside = [value + by for by in (-4, -3, -2, -1, 1, 2, 3, 4) if 0 <= value + by <= number.most]
    return [fit for v in beside if (fit := fit_of(ground, RuleCase((), ((number.path, v),))))]


class Trials:
    """Values of a number that were tried, with what they make of the rows."""

    def __init__(self, ground: Ground, number: Number) -> None:
        self.ground, self.number = ground, number
        self.cells: dict[Fraction, list[Cells]] = {Fraction(number.given): list(ground.cells)}
        self.fits: list[tuple[Fraction, Fit]] = []

    def at(self, value: Fraction) -> list[Cells] | None:
        """What a value makes of the rows; None where it can't be."""
        if value not in self.cells:
            case = self.ground.case.with_number(self.number.path, plain(value))
            cells = predicted(self.ground.scene, case)
            if cells is None:
                return None
            self.cells[value] = cells
            self.fits.append((value, judged(self.ground, RuleCase((), ((self.number.path, plain(value)),)), cells)))
        return self.cells[value]

    @property
    def is_whole(self) -> bool:
        """Whether a value was tried that leaves nothing."""
        return any(fit.wrong == 0 for _, fit in self.fits)

    def best(self) -> tuple[Fraction, Fit] | None:
        return max(self.fits, key=lambda pair: pair[1].gain) if self.fits else None


def plain(value: Fraction) -> NumberValue:
    return int(value) if value.denominator == 1 else value


def solved(ground: Ground, number: Number, start: NumberValue | None = None) -> Fit | None:
    """The value on which most rows agree, by what each place asks for, from its change with the value. `start` is one
    that is near already."""
    trials, given = Trials(ground, number), Fraction(number.given)
    if start is not None:
        approach(trials, Fraction(start))
    else:
        first = probe(trials, given)
        if first is None:
            return None
        secants(trials, given, first)
    return chosen_of(trials)


def found_far(ground: Ground, number: Number) -> Fit | None:
    """The best value of a place or a length, from some that lie far off: the rules turn between them."""
    trials = Trials(ground, number)
    look_far(trials)
    return chosen_of(trials)


def chosen_of(trials: Trials) -> Fit | None:
    """The best of the values that were tried and of those near it."""
    best = trials.best()
    if trials.number.far and best is not None and best[1].gain >= PROMISING * trials.ground.wrong:
        climb(trials)
    whole(trials)
    best = trials.best()
    return None if best is None or best[1].explained == 0 else best[1]


def look_far(trials: Trials) -> None:
    """Goes on from the best of some values that lie far off."""
    tried = [value for value in trials.number.far if trials.at(value) is not None]
    if any(changes(trials.ground, trials.cells[value]) for value in tried):
        for value in sorted(tried, key=lambda value: left(trials, value))[:FAR]:
            approach(trials, value)


def approach(trials: Trials, value: Fraction) -> None:
    """Tries values from one on, each that which most cells ask for by what a small change does at the one before it."""
    number, wide = trials.number, WIDE
    for _ in range(ROUNDS):
        beside = value + small(number) * (1 if value + small(number) <= number.most else -1)
        if trials.at(value) is None or trials.at(beside) is None:
            return
        asked = asked_for(trials, value, beside, number, wide)
        if asked is None or asked == value or trials.at(asked) is None:
            return
        value, wide = asked, WIDE / 50
        if trials.is_whole:
            return


def small(number: Number) -> Fraction:
    """A change that no rule turns in, as a rule: 1 m of a place."""
    return Fraction(100) if number.unit == "cm" else number.step


def climb(trials: Trials) -> None:
    """Tries values at growing nearness to the best one, as long as they are better."""
    step = CLIMB_CM
    while step >= 10 and not trials.is_whole:
        best = trials.best()
        if best is None or best[1].explained == 0:
            return
        value, fit = best
        for other in (value - step, value + step):
            if trials.number.least <= other <= trials.number.most:
                trials.at(other)
        best = trials.best()
        step = step if best is not None and best[1].gain > fit.gain else step // 2


def secants(trials: Trials, before: Fraction, value: Fraction) -> None:
    """Tries values one after the other, each that which most cells ask for by the two before it."""
    wide = WIDE
    for _ in range(ROUNDS):
        asked = asked_for(trials, before, value, trials.number, wide)
        if asked is None or asked in (before, value) or trials.at(asked) is None:
            return
        before, value, wide = value, asked, WIDE / 50
        if trials.is_whole:
            return


def left(trials: Trials, value: Fraction) -> float:
    """What a value leaves of the deviations, each as a part of what it is without it, at most the whole."""
    total = 0.0
    for row, (own, now) in enumerate(zip(trials.ground.cells, trials.cells[value])):
        look, agreeing = trials.ground.scene.looks[row], trials.ground.agreeing[row]
        for i in NUMERIC:
            recorded = look.recorded[i]
            if not agreeing[i] and recorded is not ABSENT and None not in (recorded, own[i], now[i]):
                total += min(1.0, float(abs(now[i] - recorded)) / float(abs(own[i] - recorded)))
    return total


def probe(trials: Trials, given: Fraction) -> Fraction | None:
    """A first value that changes something, with which it is tried."""
    number = trials.number
    for part in (1, -1, 6, -6):
        value = given + part * number.step
        if number.least <= value <= number.most and (cells := trials.at(value)) is not None:
            if changes(trials.ground, cells):
                return value
    return None


def probed(ground: Ground, number: Number) -> tuple[Fraction, list[Cells]] | None:
    """A first value of a number that changes something that doesn't agree, and what it makes of the rows."""
    trials = Trials(ground, number)
    value = probe(trials, Fraction(number.given))
    return None if value is None else (value, trials.cells[value])


def changes(ground: Ground, cells: Sequence[Cells]) -> bool:
    """Whether a number differs where it doesn't agree."""
    for before, now, agreeing in zip(ground.cells, cells, ground.agreeing):
        for i in NUMERIC:
            if not agreeing[i] and before[i] != now[i]:
                return True
    return False


def asked_for(trials: Trials, before: Fraction, value: Fraction, number: Number, wide: Fraction) -> Fraction | None:
    """The value that most cells ask for, by the line through two values that were tried."""
    ground = trials.ground
    asked: list[tuple[float, float]] = []
    for row, (one, other) in enumerate(zip(trials.cells[before], trials.cells[value])):
        look, agreeing = ground.scene.looks[row], ground.agreeing[row]
        for i in NUMERIC:
            recorded = look.recorded[i]
            if agreeing[i] or recorded is ABSENT or None in (recorded, one[i], other[i]) or one[i] == other[i]:
                continue
            slope = float(other[i] - one[i]) / float(value - before)
            at = float(value) + float(recorded - other[i]) / slope
            tolerance = float(ground.scene.allowed[UNITS[CELLS[i]]]) / abs(slope)
            asked.append((at, tolerance + float(wide) * abs(at - float(number.given))))
    if not asked:
        return None
    most_asked = Fraction(densest(asked)).limit_denominator(100_000)
    return min(max(most_asked, Fraction(number.least)), Fraction(number.most))


def densest(intervals: Sequence[tuple[float, float]]) -> float:
    """The middle of where most intervals overlap, each given by its middle and half its width."""
    return deepest(intervals)[0]


def deepest(intervals: Sequence[tuple[float, float]]) -> tuple[float, int]:
    """The same, with how many overlap there."""
    ends = sorted([(at - half, 1) for at, half in intervals] + [(at + half, -1) for at, half in intervals], key=order)
    depth, most, low, high = 0, 0, 0.0, 0.0
    for k, (at, step) in enumerate(ends):
        depth += step
        if step > 0 and depth > most:
            most, low, high = depth, at, ends[k + 1][0]
    return (low + high) / 2, most


def order(end: tuple[float, int]) -> tuple[float, int]:
    """Where intervals touch, one begins before the other one ends."""
    return end[0], -end[1]


def whole(trials: Trials) -> None:
    """Tries the whole values at the best one, since data have whole numbers."""
    best = trials.best()
    if best is None:
        return
    number, value = trials.number, best[0]
    for at in {Fraction(int(value // 1)), Fraction(int(-(-value // 1)))}:
        if number.least <= at <= number.most and at != number.given:
            trials.at(at)
    gain = max(fit.gain for _, fit in trials.fits)
    wholes = [pair for pair in trials.fits if pair[0].denominator == 1 and pair[1].gain >= gain]
    trials.fits = wholes or trials.fits
