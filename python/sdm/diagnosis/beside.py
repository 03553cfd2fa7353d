"""A recording beside the rows of an input: the runs of its differences, and what decided each of them."""

from collections.abc import Iterable, Sequence
from fractions import Fraction

from sdm.laboratory.comparison import Allowed, Difference, Pairs, due_of
from sdm.laboratory.recording import RecordedLine
from sdm.laboratory.rows import LIMITS, UNITS, RowTexts
from sdm.laboratory.texts import number

from sdm.diagnosis.profile import Facts, Seen, Words, facts_of, readings, seen, target_of, words_by
from sdm.diagnosis.runs import Joints, Run, runs_of, told

WORDS = ("state", "status", "tco", "sb", "eb")
NOTHING: Words = {"state": "C", "status": "N", "tco": "0", "sb": "0", "eb": "0"}  # before the first row
MOST_SEEN = 40  # rows of a run whose facts are worked out


class Beside:
    """The rows of an input and the lines of a recording that have their times."""

    def __init__(self, source: bytes, rows: Sequence[RowTexts], lines: Sequence[RecordedLine], pairs: Pairs) -> None:
        self.source, self.rows, self.pairs = source, rows, pairs
        self.recorded = {row + 1: lines[at][1] for row, at in pairs}
        self.readings = readings(source)

    def words(self, row: int) -> Words:
        """The words of a row as the recording has them, and as the row does where the recording lacks them."""
        if row < 1:
            return NOTHING
        recorded = self.recorded.get(row, {})
        return {name: str(recorded.get(name) or self.rows[row - 1][name]) for name in WORDS}

    def led(self, each: Seen) -> dict[str, str]:
        """The words that follow from the recording's own places, its ceiling, and its words of the row before."""
        row, recorded = self.rows[each.number - 1], self.recorded[each.number]
        shifts = {
            name: Fraction(recorded[name] - due)
            for name in LIMITS
            if recorded.get(name) is not None and (due := due_of(name, row[name])) is not None
        }
        ceiling = None if recorded.get("ceiling") is None else round(recorded["ceiling"])
        return words_by(each, shifts, ceiling, self.words(each.number - 1))

    def runs(self, beyond: Iterable[Difference], allowed: Allowed) -> list[Run]:
        """The runs of some differences; words that follow from places are in the runs of these."""
        found = list(beyond)
        asked: dict[int, set[str]] = {}
        for difference in found:
            asked.setdefault(difference.row, set()).add(difference.column)
        led: dict[int, dict[str, str]] = {}
        targets: dict[tuple[int, str], object] = {}
        for each in seen(self.source, asked):
            if not asked[each.number] <= UNITS.keys():
                led[each.number] = self.led(each)
            for column in asked[each.number] & set(LIMITS):
                targets[each.number, column] = target_of(each, column)
        joints = Joints([row + 1 for row, _ in self.pairs], allowed, lambda each: targets.get((each.row, each.column)))

        def follows(each: Difference) -> bool:
            return bool(led.get(each.row, {}).get(each.column) == each.got)

        return runs_of(found, joints, follows)

    def speeds(self, run: Run) -> dict[int, Fraction]:
        """The speeds of a run's rows, in km/h."""
        return {row: Fraction(self.readings[row - 1].speed) * 9 / 2500 for row in run.numbers}

    def facts(self, runs: Sequence[Run]) -> list[list[Facts]]:
        """What decided some rows of each run, evenly over it."""
        chosen = [(run.column, evenly(run.numbers)) for run in runs]
        asked: dict[int, set[str]] = {}
        for column, rows in chosen:
            for row in rows:
                asked.setdefault(row, set()).add(column)
        found = {
            (each.number, column): facts_of(each, column)
            for each in seen(self.source, asked)
            for column in asked[each.number]
        }
        return [[found[row, column] for row in rows] for column, rows in chosen]

    def lines(self, runs: Sequence[Run]) -> list[tuple[str, str]]:
        """Each run in a line, and what decided it in another one."""
        return [
            (told(run, self.speeds(run)), facts_told(facts)) for run, facts in zip(runs, self.facts(runs), strict=True)
        ]


def evenly(numbers: Sequence[int]) -> list[int]:
    """At most MOST_SEEN of some numbers, the first and the last among them."""
    if len(numbers) <= MOST_SEEN:
        return list(numbers)
    step = (len(numbers) - 1) / (MOST_SEEN - 1)
    return [numbers[round(step * i)] for i in range(MOST_SEEN)]


def between(values: Iterable[Fraction], digits: int) -> str:
    """Values as their least and greatest one."""
    held = list(values)
    texts = [number(round(value, digits), digits) for value in (min(held), max(held))]
    return texts[0] if texts[0] == texts[1] else f"{texts[0]} to {texts[1]}"


def facts_told(facts: Sequence[Facts]) -> str:
    """What decided the rows of a run, in a line."""
    parts = [f"{between([each.kmh for each in facts], 1)} km/h"]
    curves = [each for each in facts if each.gradients is not None and each.slopes is not None]
    if curves:
        grads = [grad for each in curves for grad in each.gradients or ()]
        slopes = [slope for each in curves for slope in each.slopes or ()]
        parts.append(f"along the curve {between(grads, 1)} ‰ and {between(slopes, 3)} m/s²")
        parts += part_of("adhesion reduced", [each.is_reduced for each in curves])
        parts += part_of("special brake not used", [each.is_unaided for each in curves])
    decided = dict.fromkeys(f"{each.target}, {each.front_end} front end" for each in facts if each.target)
    parts.append("decided by " + " and ".join(decided) if decided else "decided by no target")
    parts += dict.fromkeys(each.foot for each in facts)
    return "; ".join(parts)


def part_of(text: str, holds: Sequence[bool]) -> list[str]:
    """What holds in all rows, in some, or in none."""
    return [] if not any(holds) else [text if all(holds) else f"{text} in a part"]
