"""Counts how often a diagnosis names what was planted: the figures of docs/LABORATORY.md. It is no part of the gate.

    scripts/house try diagnose singles|pairs|true [K/N [FROM]]

`singles` are two journeys of each kind in HELD_OUT, `pairs` twenty journeys with two of these kinds, `true` twenty
recordings with noise within the tolerance and no fault. K/N takes the K-th of N parts, so that several processes count;
FROM is the first of them, from 0, that is counted.
"""
import random
import sys
import time
from fractions import Fraction

from sdm.diagnosis.diagnosing import diagnosis_of
from sdm.laboratory.recording import recording_of
from sdm.laboratory.rows import rows_of

from tests.laboratory import kinds, planted

ALLOWED = {"mm": Fraction(2), "km/h": Fraction(1, 2), "ds": 0}
SEEDS, PAIRS, TRUE = (1_000, 2_000), 20, 20
NEAR = Fraction(1, 100)


def diagnosed(plant, jobs=1):
    """The diagnosis of a plant."""
    lines = recording_of(plant.recording, None)
    return diagnosis_of(plant.source, rows_of(plant.rows), lines, ALLOWED, jobs)


def placed(due):
    """The path of a number of the data part: authorities are counted."""
    return ("authority", 0, *due[1:]) if due[0] == "authority" else due


def names(case, kind, values):
    """Whether a hypothesis is what was planted; a number within a hundredth."""
    if any(name in kind.due for name in case.rules):
        return True
    for path, value in case.numbers:
        for due in kind.due:
            if path == placed(due) and abs(Fraction(value) - values[due]) <= NEAR * abs(values[due]):
                return True
    return False


def is_in(fault, kind, values):
    """Whether a finding has what was planted: first, and at all, as one of those that stand with `or` or within the
    values from which the recording doesn't tell it."""
    first, *others = fault.cases
    spanned = fault.span is not None and any(
        due in values and fault.span.least <= values[due] <= fault.span.greatest
        for path, _ in first.numbers
        for due in kind.due
        if path == placed(due)
    )
    return names(first, kind, values), spanned or any(names(case, kind, values) for case in fault.cases)


def is_first(found, plant, kind):
    """Whether the first explanation is what was planted, alone: before all that stands with `or`, and at all."""
    if not found.explanations or len(found.explanations[0].faults) > 1:
        return False, False
    return is_in(found.explanations[0].faults[0], kind, plant.values)


def named_in(found, plant, two):
    """Whether each of some kinds is in the first explanation; and whether that is so with what stands with `or`."""
    faults = found.explanations[0].faults if found.explanations else ()
    named = [[is_in(fault, kind, plant.values) for fault in faults] for kind in two]
    return tuple(all(any(each[i] for each in of_kind) for of_kind in named) for i in (0, 1))


def told(found):
    return " + ".join(fault.sentence for fault in found.explanations[0].faults) if found.explanations else "nothing"


def part_of(each, part):
    return each[part[0] - 1 :: part[1]][part[2] :]


def count_singles(part):
    first = alike = count = 0
    for kind, seed in part_of([(kind, seed) for kind in kinds.HELD_OUT for seed in SEEDS], part):
        at, plant = planted.shown_by([kind], seed)
        begun = time.process_time()
        found = diagnosed(plant)
        is_it, is_alike = is_first(found, plant, kind)
        count, first, alike = count + 1, first + is_it, alike + is_alike
        mark = "first" if is_it else "alike" if is_alike else "MISSED"
        seconds = time.process_time() - begun
        print(f"{mark:7}{kind.name} ({at}, {plant.differing()} rows, {seconds:.1f} s): {told(found)}", flush=True)
    print(f"singles: {alike} of {count} named first, {first} of them before what stands with `or`")


def pairs():
    numbers = random.Random(82)
    return [numbers.sample(kinds.HELD_OUT, 2) for _ in range(3 * PAIRS)]


def count_pairs(part):
    both = alike = count = 0
    chosen = []
    for i, two in enumerate(pairs()):
        given = [flag for kind in two for flag in kind.given.items()]
        if len(dict(given)) == len(set(given)) and len(chosen) < PAIRS:
            chosen.append((i, two))
    for i, two in part_of(chosen, part):
        try:
            at, plant = planted.shown_by(two, 3_000 + 100 * i)
        except LookupError as why:
            print(f"skipped {why}", flush=True)
            continue
        begun = time.process_time()
        found = diagnosed(plant)
        firsts, hit = named_in(found, plant, two)
        count, both, alike = count + 1, both + firsts, alike + hit
        seconds = time.process_time() - begun
        title = " + ".join(kind.name for kind in two)
        mark = "both" if firsts else "alike" if hit else "MISSED"
        print(f"{mark:7}{title} ({at}, {seconds:.1f} s): {told(found)}", flush=True)
    print(f"pairs: both named in {alike} of {count}, in {both} of them before what stands with `or`")


def count_true(part):
    accused = count = 0
    for seed in part_of(range(5_000, 5_000 + TRUE), part):
        plant = planted.Plant(seed, [])
        plant.recording = planted.recording_of(plant.recorded, seed, 2)
        found = diagnosed(plant)
        count, accused = count + 1, accused + bool(found.explanations or found.runs)
    print(f"true: {accused} of {count} accused")


def main(words):
    counts = {"singles": count_singles, "pairs": count_pairs, "true": count_true}
    if not words or words[0] not in counts:
        print(__doc__)
        return 2
    part = tuple(map(int, (words[1] if words[1:] else "1/1").split("/"))) + (int(words[2]) if words[2:] else 0,)
    counts[words[0]](part)
    return 0


if __name__ == "__main__":
    sys.exit(main(sys.argv[1:]))
