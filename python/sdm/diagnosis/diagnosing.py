"""A diagnosis: what explains the differences of a recording, alone or together, and run by run."""

from dataclasses import dataclass
from fractions import Fraction
from itertools import combinations

from sdm.laboratory.comparison import Allowed
from sdm.laboratory.recording import RecordedLine
from sdm.laboratory.rows import RowTexts

from sdm.diagnosis.checking import SameOnRows, Checks
from sdm.diagnosis.fitting import Ground, deviation_mm, ground_of
from sdm.diagnosis.numbers import Number, NumberPath
from sdm.diagnosis.recorded import RecordedScenes, evenly
from sdm.diagnosis.runs import Run
from sdm.diagnosis.scene import MISREADINGS, NUMERIC, RuleCase, Scene, predicted
from sdm.diagnosis.search import Progress, Search, hypotheses_of, processors, together
from sdm.diagnosis.spans import ValueSpan

MOST_TOLD = 5  # explanations
OF_A_RUN = 60  # rows on which a run is judged


@dataclass(frozen=True)
class ToldFault:
    """A hypothesis of an explanation, and after it those that make the same of all rows: of each a sentence and its
    case. `span` is from where to where a number does so."""

    sentences: tuple[str, ...]
    cases: tuple[RuleCase, ...]
    span: ValueSpan | None = None

    @property
    def sentence(self) -> str:
        """All of them, of which one holds."""
        return " or ".join(self.sentences)


@dataclass(frozen=True)
class ToldExplanation:
    """An explanation: its hypotheses, and what it is worth on the rows on which it was checked: how many that differ it
    explains, how many that agree it breaks, and the mm that it leaves."""

    faults: tuple[ToldFault, ...]
    rows: int
    broken: int
    left_mm: Fraction

    @property
    def cases(self) -> tuple[RuleCase, ...]:
        """Of each hypothesis the first one of those that make the same of all rows."""
        return tuple(fault.cases[0] for fault in self.faults)

    @property
    def case(self) -> RuleCase:
        """All its hypotheses together."""
        return together(self.cases)


@dataclass(frozen=True)
class OfRun:
    """What of the best explanation explains a run: the numbers of its hypotheses, from 0; in how many of the rows that
    were judged, and the mm that it leaves in them."""

    hypotheses: tuple[int, ...]
    rows: int
    judged: int
    left_mm: Fraction


@dataclass(frozen=True)
class Diagnosis:
    """What differs in a recording, by runs, each in a line with what decided it in another one; what explains it, the
    best first; and of each run what of the best one does. `tried` counts misreadings and numbers."""

    runs: list[Run]
    lines: list[tuple[str, str]]
    explanations: list[ToldExplanation]
    of_runs: list[OfRun]
    compared: int
    checked: int
    differing: int
    tried: tuple[int, int]

    def __str__(self) -> str:
        """The lines that tools/diagnose prints."""
        from sdm.diagnosis.telling import lines_of

        return "\n".join(lines_of(self, len(self.runs)))


def silent(title: str, done: int, of: int) -> None:
    """Shows no progress."""


def diagnosis_of(
    source: bytes,
    rows: list[RowTexts],
    lines: list[RecordedLine],
    allowed: Allowed,
    jobs: int | None = None,
    show: Progress = silent,
) -> Diagnosis:
    """What explains the differences of a recording. Raises Fault where there is nothing to compare."""
    held = RecordedScenes(source, rows, lines, allowed)
    if not held.runs:
        return Diagnosis([], [], [], [], len(held.pairs), 0, 0, (0, 0))
    scene = held.scene(held.chosen())
    hypotheses = hypotheses_of(held.numbers(scene.looks))
    ground = grounded(held.scene(held.checked()))
    with processors(jobs) as pool:
        search = Search(grounded(scene), hypotheses, pool, show)
        found = Checks(ground, search).of(search.explanations())
    numbers = {number.path: number for number in hypotheses.numbers}
    told = [told_of(each, numbers) for each in found[:MOST_TOLD]]
    return Diagnosis(
        held.runs,
        held.beside.lines(held.runs),
        told,
        [of_run(held, run, told[0]) for run in held.runs] if told else [],
        len(held.pairs),
        len(ground.cells),
        sum(not all(row) for row in ground.agreeing),
        (len(hypotheses.rules), len(hypotheses.numbers)),
    )


def grounded(scene: Scene) -> Ground:
    """The ground of the profile as it stands."""
    ground = ground_of(scene)
    assert ground is not None, "the rows are those of the data"
    return ground


def told_of(alike: SameOnRows, numbers: dict[NumberPath, Number]) -> ToldExplanation:
    """An explanation in words."""
    best, fit = alike.best, alike.best.fit
    faults = [
        ToldFault(
            (sentence_of(case, numbers, span), *(sentence_of(other, numbers) for other in instead)),
            (case, *instead),
            span,
        )
        for case, instead, span in zip(best.cases, alike.instead, alike.spans, strict=True)
    ]
    return ToldExplanation(tuple(faults), fit.rows, fit.rows_broken, fit.left_mm)


def sentence_of(case: RuleCase, numbers: dict[NumberPath, Number], span: ValueSpan | None = None) -> str:
    """A hypothesis in a sentence."""
    parts = [MISREADINGS[name].told for name in case.rules]
    for path, value in case.numbers:
        number = numbers[path]
        parts.append(number.between(*span) if span is not None and span.is_wide else number.sentence(value))
    return " and ".join(parts)


def of_run(held: RecordedScenes, run: Run, told: ToldExplanation) -> OfRun:
    """What explains a run: the fewest hypotheses that do as much as all together."""
    ground = grounded(held.scene(evenly(run.numbers, OF_A_RUN)))
    numbers = range(len(told.cases))
    tried = [of_hypotheses(ground, told, those) for count in numbers for those in combinations(numbers, count + 1)]
    return max(tried, key=lambda each: (each.rows, -len(each.hypotheses)))


def of_hypotheses(ground: Ground, told: ToldExplanation, chosen: tuple[int, ...]) -> OfRun:
    """How many rows some hypotheses of an explanation explain together."""
    cells = predicted(ground.scene, together([told.cases[i] for i in chosen]))
    if cells is None:
        return OfRun(chosen, 0, len(ground.cells), Fraction(0))
    rows, left = 0, Fraction(0)
    for look, own in zip(ground.scene.looks, cells):
        if all(ground.scene.agrees(look, own)):
            rows += 1
            left = max(left, *(deviation_mm(look, i, own[i]) for i in NUMERIC))
    return OfRun(chosen, rows, len(ground.cells), left)
