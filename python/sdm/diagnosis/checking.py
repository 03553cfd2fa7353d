"""What was found, checked on many rows: which explanation is best there, and which ones the recording doesn't tell
apart."""

from collections.abc import Iterable, Sequence
from dataclasses import dataclass
from typing import NamedTuple

from sdm.laboratory.rows import UNITS

from sdm.diagnosis.fitting import Fit, Ground, judged
from sdm.diagnosis.recorded import evenly
from sdm.diagnosis.scene import ABSENT, CELLS, MISREADINGS, NUMERIC, Cells, RuleCase, predicted
from sdm.diagnosis.search import FoundExplanation, Search, simplicity, together
from sdm.diagnosis.spans import ValueSpan, span_of

MOST_TRIED = 12  # explanations that are checked
MOST_SPANNED = 300  # rows by which the values of a number are told apart
MOST_ALIKE = 12  # hypotheses that may stand for one of an explanation


class Checked(NamedTuple):
    """An explanation on many rows: its hypotheses, what they make of the rows, and what they are worth there."""

    cases: tuple[RuleCase, ...]
    cells: list[Cells]
    fit: Fit

    @property
    def order(self) -> tuple[float, ...]:
        """The best one has the greatest of these: gain first, less a little for each hypothesis, then the simplest and
        the narrowest, that which changes the fewest rules, then what it leaves."""
        free = sum(simplicity(case) for case in self.cases)
        rules = sum(MISREADINGS[name].parts for case in self.cases for name in case.rules)
        return self.fit.gain - 2 * (len(self.cases) - 1), -free, -rules, -float(self.fit.left_mm)


@dataclass(frozen=True)
class SameOnRows:
    """An explanation with, for each of its hypotheses, others that make the same of all rows; and of a number between
    which values it does so."""

    best: Checked
    instead: tuple[tuple[RuleCase, ...], ...]
    spans: tuple[ValueSpan | None, ...]


class Checks:
    """Checks explanations on a ground of many rows."""

    def __init__(self, ground: Ground, search: Search) -> None:
        self.ground, self.search = ground, search

    def checked(self, cases: tuple[RuleCase, ...]) -> Checked | None:
        """An explanation on the rows; None where it can't be, or breaks more than it explains."""
        cells = predicted(self.ground.scene, together(cases))
        if cells is None:
            return None
        fit = judged(self.ground, together(cases), cells)
        return Checked(cases, cells, fit) if fit.gain > 0 else None

    def of(self, found: Iterable[FoundExplanation]) -> list[SameOnRows]:
        """Explanations, the best first, each once."""
        tried = [self.checked(each.cases) for each in list(found)[:MOST_TRIED]]
        ranked = sorted((each for each in tried if each is not None), key=lambda each: each.order, reverse=True)
        if not ranked:
            return []
        first, beside = self.best_of(ranked[0])
        ranked = sorted([first, *beside, *ranked], key=lambda each: each.order, reverse=True)
        told = self.grouped(ranked)
        return [self.spanned(told[0]), *told[1:]]

    def spanned(self, alike: SameOnRows) -> SameOnRows:
        """An explanation whose numbers are in the middle of the values that make the same of all rows."""
        numbers = {number.path: number for number in self.search.hypotheses.numbers}
        cases, spans = list(alike.best.cases), list[ValueSpan | None]()
        ground = self.ground.part(evenly(range(len(self.ground.cells)), MOST_SPANNED))
        for i, case in enumerate(cases):
            others, span = together(cases[:i] + cases[i + 1 :]), None
            for path, value in case.numbers:
                span = span_of(ground, others, numbers[path], value)
                cases[i] = case if span is None else RuleCase((), ((path, span.named),))
            spans.append(span)
        best = self.checked(tuple(cases))
        if best is None or best.fit.agreeing != alike.best.fit.agreeing:
            best, spans = alike.best, [None] * len(cases)
        return SameOnRows(best, alike.instead, tuple(spans))

    def best_of(self, first: Checked) -> tuple[Checked, list[Checked]]:
        """The best of an explanation and of those that have another hypothesis in the place of one of its own; and all
        of these."""
        explanation = FoundExplanation(first.cases, self.search.worth_of(first.cases))
        cases = [each.cases for i in range(len(first.cases)) for each in self.search.instead(explanation, i)]
        found = [each for other in dict.fromkeys(cases) if (each := self.checked(other)) is not None]
        return max([first, *found], key=lambda each: each.order), found

    def grouped(self, ranked: Sequence[Checked]) -> list[SameOnRows]:
        """Explanations without those that another one stands for."""
        left = list(ranked)
        found = []
        while left:
            best = left[0]
            same = [each for each in left if self.is_same(best, each)]
            instead = tuple(self.instead_of(best, i, same) for i in range(len(best.cases)))
            found.append(SameOnRows(best, instead, (None,) * len(best.cases)))
            left = [each for each in left if each not in same or not is_told(each, best, instead)]
            left = left[1:] if left and left[0] is best else left
        return found

    def instead_of(self, best: Checked, i: int, same: Sequence[Checked]) -> tuple[RuleCase, ...]:
        """What may stand in the place of the i-th hypothesis; of a number one value alone."""
        others = set(best.cases[:i] + best.cases[i + 1 :])
        found: dict[object, RuleCase] = {subject(best.cases[i]): best.cases[i]}
        for each in same:
            own = set(each.cases) - others
            if len(each.cases) == len(best.cases) and len(own) == 1:
                (case,) = own
                found.setdefault(subject(case), case)
        return tuple(found.values())[1:MOST_ALIKE]

    def is_same(self, one: Checked, other: Checked) -> bool:
        """Whether the recording doesn't tell two explanations apart: the same cells agree, and none differ by more than
        the tolerance."""
        if one.fit.agreeing != other.fit.agreeing:
            return False
        looks = self.ground.scene.looks
        return all(
            look.recorded[i] is ABSENT or self.is_near(i, a[i], b[i])
            for look, a, b in zip(looks, one.cells, other.cells, strict=True)
            for i in range(len(CELLS))
        )

    def is_near(self, i: int, a: object, b: object) -> bool:
        if a == b or i not in NUMERIC:
            return a == b
        return None not in (a, b) and abs(a - b) <= self.ground.scene.allowed[UNITS[CELLS[i]]]  # type: ignore


def subject(case: RuleCase) -> object:
    """What a hypothesis is of: its rules and the paths of its numbers."""
    return case.rules, tuple(path for path, _ in case.numbers)


def is_told(each: Checked, best: Checked, instead: Sequence[Sequence[RuleCase]]) -> bool:
    """Whether an explanation is told with another one: each of its hypotheses is one of that."""
    told = {subject(case) for case in best.cases} | {subject(case) for cases in instead for case in cases}
    return {subject(case) for case in each.cases} <= told
