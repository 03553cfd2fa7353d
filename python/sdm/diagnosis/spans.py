"""Which values of a number a recording doesn't tell apart: from the least to the greatest one with which the same cells
agree. A journey that never passes the end of an area says nothing of where it ends."""

from collections.abc import Callable
from fractions import Fraction
from typing import NamedTuple

from sdm.diagnosis.fitting import Ground, judged
from sdm.diagnosis.numbers import Number, NumberValue
from sdm.diagnosis.scene import RuleCase, predicted

FIRST = Fraction(1, 2000)  # of a value: how far the first one beside it is
HALVINGS = 7  # in which the end of a span is looked for
MOST = Fraction(1, 2)  # of a value: how far an end of its span is looked for, and not past the value that is given
WIDE = Fraction(1, 100)  # of a value: a span that is wider is told, else the value in its middle


class ValueSpan(NamedTuple):
    """The least and the greatest value of a number."""

    least: Fraction
    greatest: Fraction

    @property
    def is_wide(self) -> bool:
        return self.greatest - self.least > WIDE * abs(self.middle)

    @property
    def middle(self) -> Fraction:
        return (self.least + self.greatest) / 2

    @property
    def named(self) -> NumberValue:
        """The whole value nearest to the middle where there is one in the span, else the middle."""
        whole = round(self.middle)
        return whole if self.least <= whole <= self.greatest else self.middle


def span_of(ground: Ground, others: RuleCase, number: Number, value: NumberValue) -> ValueSpan | None:
    """The span of a number beside what else holds; None of a number that is no matter of more or less."""
    if number.choices:
        return None
    cells = predicted(ground.scene, others.with_number(number.path, value))
    assert cells is not None, "it was found on these rows"
    due = judged(ground, others, cells).agreeing

    def is_same(other: Fraction) -> bool:
        made = predicted(ground.scene, others.with_number(number.path, other))
        return made is not None and judged(ground, others, made).agreeing == due

    held, given = Fraction(value), Fraction(number.given)
    low = max(Fraction(number.least), held - MOST * abs(held), *([given] if given < held else []))
    high = min(Fraction(number.most), held + MOST * abs(held), *([given] if given > held else []))
    return ValueSpan(end_of(held, low, is_same), end_of(held, high, is_same))


def end_of(value: Fraction, last: Fraction, is_same: Callable[[Fraction], bool]) -> Fraction:
    """The farthest value towards the last one that is the same: by steps that grow, and then by halves."""
    inside, step = value, max(FIRST * abs(value), Fraction(1, 100))
    while True:
        outside = min(inside + step, last) if last > value else max(inside - step, last)
        if not is_same(outside):
            break
        if outside == last:
            return last
        inside, step = outside, min(2 * step, max(WIDE * abs(value), step))
    for _ in range(HALVINGS):
        middle = (inside + outside) / 2
        inside, outside = (middle, outside) if is_same(middle) else (inside, middle)
    return inside
