"""Two hypotheses that change the same cells: neither makes them agree alone, so they are looked for together.

What each moves a place by alone nearly adds up. So the pairs whose sum is nearest to what the recording's places are
off by are tried in full, and no other ones.
"""

from collections.abc import Callable, Sequence
from fractions import Fraction
from functools import partial
from typing import Any, NamedTuple

from sdm.laboratory.rows import UNITS

from sdm.diagnosis.fitting import Fit, Ground, deepest, fit_of, fitted, ground_of, plain, probed
from sdm.diagnosis.numbers import Number
from sdm.diagnosis.scene import ABSENT, CELLS, NUMERIC, RuleCase, predicted

MOST_CELLS = 80  # that moves are added up in
MOST_PAIRS = 48  # that are tried in full
NEARLY = 0.04  # of a move: how far a sum may be off
SPOTS = 12  # pairs of cells by which two numbers are solved for
ROUNDS = 5  # in which two numbers are solved for
STEP = 1  # by which a number is changed to see what it moves
WHOLE = 0.2  # how near a whole number a value is taken for it
Spot = tuple[int, int]  # a row and a cell of it
Mapped = Callable[[Callable[[Any], list[Any]], Sequence[Any], str], list[Any]]


class Move(NamedTuple):
    """What a hypothesis moves places by, one after the other: of a number for each of its units, else of a case."""

    case: RuleCase
    number: Number | None
    by: tuple[float, ...]


class Pair(NamedTuple):
    """Two moves, in how many cells they add up to what is off, and the values of the numbers among them."""

    one: Move
    other: Move
    cells: int
    values: tuple[float, float]


def spots(ground: Ground) -> list[Spot]:
    """Places that don't agree, evenly over all of them."""
    found = [
        (row, i)
        for row, (look, own, agreeing) in enumerate(zip(ground.scene.looks, ground.cells, ground.agreeing))
        for i in NUMERIC
        if not agreeing[i] and look.recorded[i] is not ABSENT and None not in (look.recorded[i], own[i])
    ]
    return found[:: max(-(-len(found) // MOST_CELLS), 1)]


def off(ground: Ground, where: Sequence[Spot]) -> list[float]:
    """By how much places are off; NaN of one that isn't there."""
    pairs = [(ground.scene.looks[row].recorded[i], ground.cells[row][i]) for row, i in where]
    return [float("nan") if own is None else float(recorded - own) for recorded, own in pairs]


def allowed(ground: Ground, where: Sequence[Spot]) -> list[float]:
    """By how much they may be off."""
    return [float(ground.scene.allowed[UNITS[CELLS[i]]]) for _, i in where]


def moved(ground: Ground, where: Sequence[Spot], cells: Sequence[Any] | None) -> tuple[float, ...] | None:
    """By how much other values of rows move places; None where they move none."""
    if cells is None:
        return None
    by = [float("nan") if cells[row][i] is None else float(cells[row][i] - ground.cells[row][i]) for row, i in where]
    return tuple(by) if any(by) else None


def moves(ground: Ground, hypothesis: str | Number) -> list[Move]:
    """The moves of a hypothesis: one, none, or of a number with choices one for each of these."""
    where = spots(ground)
    if isinstance(hypothesis, Number) and not hypothesis.choices:
        found = probed(ground, hypothesis)
        if found is None or (by := moved(ground, where, found[1])) is None:
            return []
        step = float(found[0] - hypothesis.given)
        return [Move(RuleCase(), hypothesis, tuple(each / step for each in by))]
    if isinstance(hypothesis, str):
        cases = [RuleCase((hypothesis,))]
    else:
        cases = [RuleCase((), ((hypothesis.path, value),)) for value in hypothesis.choices if value != hypothesis.given]
    made = [(case, moved(ground, where, predicted(ground.scene, case))) for case in cases]
    return [Move(case, None, by) for case, by in made if by is not None]


def candidates(ground: Ground, found: Sequence[Move], made: Mapped) -> list[Pair]:
    """The pairs that add up best."""
    where = spots(ground)
    firsts = {each.by: each for each in reversed(found)}
    distinct = list(firsts.values())
    added = partial(best_with, off(ground, where), allowed(ground, where), distinct)
    pairs: list[Pair] = made(added, range(len(distinct)), "two at once")
    return sorted(pairs, key=lambda pair: -pair.cells)[:MOST_PAIRS]


def best_with(due: Sequence[float], most: Sequence[float], found: Sequence[Move], firsts: Sequence[int]) -> list[Pair]:
    """The pairs of some moves with each later one, where two add up better than one of them alone."""
    pairs = []
    for i in firsts:
        for other in found[i + 1 :]:
            pair = added_up(due, most, found[i], other)
            if pair is not None and pair.cells > 2:
                pairs.append(pair)
    return sorted(pairs, key=lambda pair: -pair.cells)[:MOST_PAIRS]


def added_up(due: Sequence[float], most: Sequence[float], one: Move, other: Move) -> Pair | None:
    """In how many cells two moves add up to what is due."""
    if one.number is not None and other.number is None:
        one, other = other, one
    if one.number is not None:
        t, u, count = solved(due, most, one.by, other.by)
        return Pair(one, other, count, (t, u))
    if other.number is None:
        near = zip(due, most, one.by, other.by)
        return Pair(one, other, sum(abs(d - a - b) <= slack(m, a, b) for d, m, a, b in near), (0, 0))
    left = [(d - a, b, slack(m, a, d - a)) for d, m, a, b in zip(due, most, one.by, other.by)]
    asked = [(by / b, half / abs(b)) for by, b, half in left if b and by == by and b == b]
    if not asked:
        return None
    u, depth = deepest(asked)
    return Pair(one, other, depth + sum(not b and abs(by) <= half for by, b, half in left), (0, u))


def slack(most: float, *moves_by: float) -> float:
    """How far a sum of moves may be off."""
    return max(2 * most, NEARLY * max(abs(by) for by in moves_by))


def solved(
    due: Sequence[float], most: Sequence[float], one: Sequence[float], other: Sequence[float]
) -> tuple[float, float, int]:
    """Of two numbers the values by which their moves add up in most cells: by some pairs of cells, each solved."""
    count, best = len(due), (0.0, 0.0, 0)
    for k in range(SPOTS):
        i, j = (2 * k + 1) * count // (2 * SPOTS), (2 * k + 1) * count // (2 * SPOTS) + count // 2 + k
        i, j = i % count, j % count
        det = one[i] * other[j] - one[j] * other[i]
        if not det or det != det or abs(det) < 1e-6 * abs(one[i] * other[j]):
            continue
        t = (due[i] * other[j] - due[j] * other[i]) / det
        u = (one[i] * due[j] - one[j] * due[i]) / det
        near = zip(due, most, one, other)
        hits = sum(abs(d - t * a - u * b) <= slack(m, t * a, u * b) for d, m, a, b in near)
        best = max(best, (t, u, hits), key=lambda each: each[2])
    return best


def both(ground: Ground, pairs: Sequence[Pair]) -> list[tuple[Fit, Fit]]:
    """What pairs are worth in full: the fit of the one, and that of the other upon it."""
    found = [numbers(ground, pair) if pair.one.number else upon(ground, pair.one.case, pair.other) for pair in pairs]
    return [each for each in found if each is not None]


def upon(ground: Ground, case: RuleCase, other: Move) -> tuple[Fit, Fit] | None:
    """A case with another move upon it, whose number is solved for there."""
    first, lower = fit_of(ground, case), ground_of(ground.scene, case)
    if first is None or lower is None:
        return None
    second = fit_of(lower, other.case) if other.number is None else fitted(lower, other.number)
    return None if second is None else (first, second)


def numbers(ground: Ground, pair: Pair) -> tuple[Fit, Fit] | None:
    """Two numbers, solved for by what each moves where both have their values; then the other one upon the first."""
    assert pair.one.number is not None and pair.other.number is not None
    two = (pair.one.number, pair.other.number)
    values = [within(Fraction(each.given) + rounded(by), each) for each, by in zip(two, pair.values)]
    for _ in range(ROUNDS):
        step = step_of(ground, two, values)
        if step is None:
            return None
        values = [within(value + rounded(by), each) for each, value, by in zip(two, values, step)]
    first = Fraction(round(values[0])) if abs(values[0] - round(values[0])) < WHOLE else values[0]
    return upon(ground, RuleCase((), ((two[0].path, plain(first)),)), pair.other)


def rounded(by: float) -> Fraction:
    return Fraction(by).limit_denominator(100_000)


def within(value: Fraction, number: Number) -> Fraction:
    """The nearest value of a number's range."""
    return min(max(value, Fraction(number.least)), Fraction(number.most))


def step_of(ground: Ground, two: Sequence[Number], values: Sequence[Fraction]) -> tuple[float, float] | None:
    """By how much two numbers are to change so that most places agree; None where these values can't be."""
    where = spots(ground)
    case = RuleCase((), tuple((each.path, plain(value)) for each, value in zip(two, values)))
    here = ground_of(ground.scene, case)
    if here is None:
        return None
    slopes = []
    for number in two:
        beside = [plain(value + STEP * (each is number)) for each, value in zip(two, values)]
        case = RuleCase((), tuple((each.path, value) for each, value in zip(two, beside)))
        by = moved(here, where, predicted(ground.scene, case))
        if by is None:
            return None
        slopes.append([each / STEP for each in by])
    t, u, _ = solved(off(here, where), allowed(here, where), *slopes)
    return t, u


__all__ = ["Move", "Pair", "both", "candidates", "moves"]
