"""The search for what explains a recording: every misreading and every number, alone, on the ground of those that
explain most, two at once where neither explains a cell alone, and each again beside the others that were found."""

import os
from collections.abc import Callable, Iterator, Sequence
from concurrent.futures import Executor, ProcessPoolExecutor
from contextlib import contextmanager
from dataclasses import dataclass
from functools import partial
from typing import Any, NamedTuple

from sdm.diagnosis.fitting import Fit, Ground, fit_of, fitted, found_far, ground_of, judged, over
from sdm.diagnosis.joint import both, candidates, moves
from sdm.diagnosis.numbers import Number, NumberValue
from sdm.diagnosis.scene import MISREADINGS, RuleCase, predicted

FEW = 14  # rows on which a hypothesis is tried first
WIDTH = 3  # how many of the best ones are built on
MOST_FAULTS = 4  # in an explanation
MOST_ROUNDS = 3  # in which the hypotheses of an explanation are looked for again
NEAR = 0.4  # of the best one's worth: what one must have to be built on
LEAST = 0.04  # of the cells that differ: what a hypothesis must gain of them
CHUNK = 6  # hypotheses to a job
Progress = Callable[[str, int, int], None]
Hypothesis = str | Number


@dataclass(frozen=True)
class Hypotheses:
    """All that is tried: the names of misreadings, and numbers."""

    rules: tuple[str, ...]
    numbers: tuple[Number, ...]

    def all(self) -> list[Hypothesis]:
        return [*self.rules, *self.numbers]


class FoundExplanation(NamedTuple):
    """An explanation: its hypotheses, and what they are worth together on the ground of the profile."""

    cases: tuple[RuleCase, ...]
    fit: Fit

    @property
    def is_whole(self) -> bool:
        """Whether it leaves no cell of those that it was tried on."""
        return all(all(row) for row in self.fit.agreeing)


def try_one(ground: Ground, hypothesis: Hypothesis, is_far: bool = False) -> Fit | None:
    """The best that a hypothesis gives on a ground, tried on a few rows first; of a number from far values on, where
    this is asked for."""
    few = ground.part(chosen(ground))
    found = try_far(few, hypothesis) if is_far else try_on(few, hypothesis)
    if found is None or found.explained == 0 or found.gain < 0:
        return None
    if len(few.cells) == len(ground.cells):
        return found
    return try_on(ground, hypothesis, *(value for _, value in found.case.numbers))


def try_on(ground: Ground, hypothesis: Hypothesis, start: NumberValue | None = None) -> Fit | None:
    """The best of a hypothesis; `start` is a number's value that is near it."""
    if isinstance(hypothesis, str):
        return fit_of(ground, RuleCase((hypothesis,)))
    return fitted(ground, hypothesis, start)


def try_far(ground: Ground, hypothesis: Hypothesis) -> Fit | None:
    """The best of a number from far values on."""
    return None if isinstance(hypothesis, str) or not hypothesis.far else found_far(ground, hypothesis)


def chosen(ground: Ground) -> list[int]:
    """A few rows: most of them with cells that differ, of as many kinds as there are."""
    kinds: dict[tuple[bool, ...], list[int]] = {}
    for i, agreeing in enumerate(ground.agreeing):
        kinds.setdefault(agreeing, []).append(i)
    same = kinds.pop((True,) * len(ground.agreeing[0]), [])
    taken: list[int] = []
    rank = 0
    while len(taken) < FEW - 3 and any(len(rows) > rank for rows in kinds.values()):
        for rows in kinds.values():
            if len(rows) > rank and len(taken) < FEW - 3:
                taken.append(rows[spread(rank, len(rows))])
        rank += 1
    return sorted(set(taken) | set(same[:: max(len(same) // 3, 1)][:3]))


def spread(rank: int, count: int) -> int:
    """The rank-th of the numbers below a count, in an order that is soon spread over all of them."""
    order = sorted(range(count), key=lambda i: int(bin(i)[:1:-1].ljust(16, "0"), 2))
    return order[rank]


def try_chunk(ground: Ground, is_far: bool, hypotheses: Sequence[Hypothesis]) -> list[Fit]:
    return [fit for each in hypotheses if (fit := try_one(ground, each, is_far)) is not None]


def try_moves(ground: Ground, hypotheses: Sequence[Hypothesis]) -> list[Any]:
    return [move for each in hypotheses for move in moves(ground, each)]


class Search:
    """Looks for what explains a ground, on all processors."""

    def __init__(self, ground: Ground, hypotheses: Hypotheses, pool: Executor | None, progress: Progress) -> None:
        self.ground, self.hypotheses, self.pool, self.progress = ground, hypotheses, pool, progress
        self.tried: dict[RuleCase, list[Fit]] = {}

    def made(self, make: Callable[[Any], list[Any]], given: Sequence[Any], title: str) -> list[Any]:
        """What is made of each of many, in some chunks."""
        count = max(len(given) // CHUNK, 1)
        chunks = [given[i::count] for i in range(count)]
        mapped: Any = self.pool.map if self.pool is not None else map
        found: list[Any] = []
        done = 0
        for chunk, part in zip(chunks, mapped(make, chunks)):
            found += part
            done += len(chunk)
            self.progress(title, done, len(given))
        return found

    def fits(self, case: RuleCase, title: str) -> list[Fit]:
        """What each hypothesis gives where a case holds already, the best first. Where none explains all, numbers are
        looked for far from their values too."""
        if case not in self.tried:
            ground = self.ground if case == RuleCase() else ground_of(self.ground.scene, case)
            found = self.on(ground, title) if ground is not None else []
            self.tried[case] = sorted(found, key=worth, reverse=True)
        return self.tried[case]

    def on(self, ground: Ground, title: str) -> list[Fit]:
        """What each hypothesis gives on a ground."""
        found: list[Fit] = self.made(partial(try_chunk, ground, False), self.hypotheses.all(), title)
        if any(fit.wrong == 0 for fit in found):
            return found
        far = [number for number in self.hypotheses.numbers if number.far and not number.choices]
        best = {fit.case.numbers[0][0]: fit for fit in found if fit.case.numbers}
        for fit in self.made(partial(try_chunk, ground, True), far, title):
            path = fit.case.numbers[0][0]
            best[path] = max([fit, *([best[path]] if path in best else [])], key=worth)
        return [fit for fit in found if not fit.case.numbers] + list(best.values())

    def explanations(self) -> list[FoundExplanation]:
        """Explanations, the best first."""
        found = self.longer(None, "alone")
        beam = distinct(found)
        for count in range(2, MOST_FAULTS + 1):
            if any(each.is_whole for each in found):
                break
            longer = list[FoundExplanation]()
            for each in beam:
                longer += self.longer(each, f"{count} together")
                if any(more.is_whole for more in longer):
                    break
            if count == 2 and not any(each.is_whole for each in longer):
                longer += self.at_once()
            found += longer
            beam = distinct(sorted(longer, key=total, reverse=True))[: WIDTH if count == 2 else 1]
            if beam and not beam[0].is_whole:
                beam[0] = self.again(beam[0])
                found.append(beam[0])
        return sorted(found, key=total, reverse=True)

    def longer(self, explanation: FoundExplanation | None, title: str) -> list[FoundExplanation]:
        """An explanation with one hypothesis more."""
        cases = () if explanation is None else explanation.cases
        before = [] if explanation is None else [explanation.fit]
        fits = self.fits(together(cases), title)
        left = self.ground.wrong if explanation is None else explanation.fit.wrong
        told = [fit for fit in fits if fit.gain >= least(left, fit.case) and adds(cases, fit.case)]
        return [FoundExplanation((*cases, fit.case), over(self.ground, [*before, fit])) for fit in told]

    def worth_of(self, cases: tuple[RuleCase, ...]) -> Fit:
        """What hypotheses are worth together."""
        cells = predicted(self.ground.scene, together(cases))
        assert cells is not None, "they were found on these rows"
        return judged(self.ground, together(cases), cells)

    def at_once(self) -> list[FoundExplanation]:
        """Two hypotheses that change the same cells, so that neither explains them alone."""
        moved = self.made(partial(try_moves, self.ground), self.hypotheses.all(), "two at once")
        pairs = candidates(self.ground, moved, self.made)
        found = self.made(partial(both, self.ground), pairs, "two at once")
        made = [FoundExplanation(tuple(fit.case for fit in fits), over(self.ground, fits)) for fits in found]
        return [
            each
            for each in made
            if adds(each.cases[:1], each.cases[1])
            and each.fit.gain >= sum(least(self.ground.wrong, case) for case in each.cases)
        ]

    def again(self, explanation: FoundExplanation) -> FoundExplanation:
        """An explanation whose hypotheses are looked for again, each beside the others."""
        for _ in range(MOST_ROUNDS):
            before = explanation
            for i in range(len(explanation.cases)):
                better = max([explanation, *self.instead(explanation, i)], key=total)
                explanation = better if total(better) > total(explanation) else explanation
            if explanation is before:
                break
        return explanation

    def instead(self, explanation: FoundExplanation, i: int) -> list[FoundExplanation]:
        """What explains as much and more with another hypothesis in the i-th one's place."""
        others = explanation.cases[:i] + explanation.cases[i + 1 :]
        ground = ground_of(self.ground.scene, together(others))
        if ground is None:
            return []
        held = Fit(together(others), ground.agreeing, 0, 0, 0, 0, explanation.fit.left_mm * 0)
        fits = [fit for fit in self.fits(together(others), "again") if adds(others, fit.case)]
        found = [(fit, over(self.ground, [held, fit])) for fit in fits]
        return [
            FoundExplanation((*others[:i], fit.case, *others[i:]), of)
            for fit, of in found
            if of.gain >= explanation.fit.gain
        ]


def least(wrong: int, case: RuleCase) -> float:
    """What a hypothesis must gain of the cells that differ: two at least, except for a rule with one alone."""
    return max(2 if case.numbers else min(2, wrong), LEAST * wrong)


def adds(cases: Sequence[RuleCase], case: RuleCase) -> bool:
    """Whether a hypothesis isn't among some already, by its rule or its number."""
    held = {name for each in cases for name in each.rules}
    paths = {path for each in cases for path, _ in each.numbers}
    return not held & set(case.rules) and not paths & {path for path, _ in case.numbers}


def worth(fit: Fit) -> tuple[float, ...]:
    """The order of hypotheses: by their gain, then rules before flags before numbers, then what is left."""
    return fit.gain, -simplicity(fit.case), -float(fit.left_mm)


def simplicity(case: RuleCase) -> int:
    """How much a hypothesis is free to fit: 0 of rules, 1 of flags, 2 of whole numbers, 3 of others."""
    kinds = [1 if isinstance(value, bool) else 2 if isinstance(value, int) else 3 for _, value in case.numbers]
    return max(kinds, default=0)


def total(explanation: FoundExplanation) -> tuple[float, ...]:
    """The order of explanations: by what they gain, less a little for each hypothesis, then as hypotheses alone."""
    free = sum(simplicity(case) for case in explanation.cases)
    return explanation.fit.gain - 2 * (len(explanation.cases) - 1), -free, -float(explanation.fit.left_mm)


def together(cases: Sequence[RuleCase]) -> RuleCase:
    """The case of all of some hypotheses."""
    case = RuleCase()
    for each in cases:
        case = case.with_case(each)
    return case


def distinct(explanations: Sequence[FoundExplanation]) -> list[FoundExplanation]:
    """The first explanations that leave different cells, as long as they are worth enough."""
    found: dict[object, FoundExplanation] = {}
    for each in explanations:
        if total(each)[0] >= NEAR * total(explanations[0])[0]:
            found.setdefault(each.fit.agreeing, each)
    return list(found.values())[:WIDTH]


@contextmanager
def processors(count: int | None) -> Iterator[Executor | None]:
    """A pool of processes, as many as there are processors where none are told; None of one."""
    wanted = count or len(os.sched_getaffinity(0))
    if wanted == 1:
        yield None
        return
    with ProcessPoolExecutor(wanted) as pool:
        yield pool


def hypotheses_of(numbers: Sequence[Number]) -> Hypotheses:
    """All misreadings, and numbers."""
    return Hypotheses(tuple(MISREADINGS), tuple(numbers))
