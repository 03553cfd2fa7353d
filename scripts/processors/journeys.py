"""The journeys that are played everywhere: those that are stored, with what their files tell, and those that are made
from seeds, with what a program writes."""
from __future__ import annotations

import itertools
import re
from collections.abc import Iterator, Sequence
from concurrent.futures import ThreadPoolExecutor
from functools import partial
from pathlib import Path

from scripts.processors import packed
from scripts.product.model import made
from scripts.product.stored import FOLDERS, journeys_in
from sdm.laboratory.cases import Case, case_of
from sdm.laboratory.program import TOP, Result, run
from sdm.rows import RULES, STANDINGS, STATES, SUPERVISIONS, TARGETS, TEXTS, Rule
from sdm_evidence.makers.changes import make

CHANGES = 300  # journeys over several data parts
SAMPLE = 12  # of each so many stored journeys one is in what a target takes as C
THREADS = 2
ALTERED = ["approach", "display", "causes", "refused-data", "refused-opening"]  # examples whose answers are altered
LONG_KEY = re.compile(rb"^(\w{16,}) =", re.M)
PLAIN_RULES = [rule for rule in RULES if rule != Rule.TARGET]  # a target has numbers behind it
WORDS: dict[str, dict[int, Sequence[str]]] = {  # of the columns of what each command writes
    "run": {1: STATES, 2: SUPERVISIONS},
    "display": {5: TARGETS},
    "why": {**dict.fromkeys(range(1, 5), PLAIN_RULES), **dict.fromkeys(range(5, 8), STANDINGS)},
}


def stored() -> list[Case]:
    """The journeys of examples/ and vectors/ that the library can play, with what is due."""
    return [case for folder in FOLDERS for case in journeys_in(folder) if packed.journey(case) is not None]


def told(program: Path, case: Case) -> Case:
    """A case with what a program writes for it."""
    return Case(case.name, case.words, case.data, run(program, case.words, case.data))


def by(program: Path, count: int) -> list[Case]:
    """So many journeys, of the first seeds that make one that the library can play, by each word in turn, with what a
    program writes for them."""
    found: list[Case] = []
    for first in itertools.count(0, count):
        cases = [case._replace(words=[packed.TOLD[at % 3]]) for at, case in enumerate(made(first, count))]
        with ThreadPoolExecutor(THREADS) as threads:
            found += [case for case in threads.map(partial(told, program), cases) if packed.journey(case) is not None]
        if len(found) >= count:
            break
    return found[:count]


def misspelt(program: Path) -> list[Case]:
    """The example with every key, each letter of its long keys in turn spelt wrongly, with what a program writes: bytes
    are compared by 16 from so many on."""
    case = case_of(TOP / "examples" / "every-key", "every-key")
    found = []
    for key in LONG_KEY.finditer(case.data):
        for at in range(*key.span(1)):
            data = case.data[:at] + b"z" + case.data[at + 1 :]
            found.append(Case(f"every-key, byte {at} another", ["run"], data, run(program, ["run"], data)))
    return found


def all_packed(cases: list[Case]) -> list[bytes]:
    """Cases as bytes."""
    return [found for case in cases if (found := packed.journey(case)) is not None]


def packed_with_changes(cases: list[Case]) -> bytes:
    """Cases, and journeys over several data parts that the model makes, as bytes."""
    return packed.packed(
        [*all_packed(cases), *(packed.change(f"change {seed}", make(seed)) for seed in range(CHANGES))]
    )


def packed_sample() -> bytes:
    """Some of the stored journeys, and some over several data parts, as bytes."""
    changes = [packed.change(f"change {seed}", make(seed)) for seed in range(0, CHANGES, SAMPLE)]
    return packed.packed([*all_packed(stored()[::SAMPLE]), *changes])


def another(field: str, words: Sequence[str]) -> str:
    """Another field in the place of one, out of the words that its column has."""
    if field in words:
        return words[(words.index(field) + 1) % len(words)]
    front, blank, number = field.rpartition(" ")
    return "5" if field == "-" else f"{front}{blank}{int(number) + 1}"


def altered(case: Case) -> Iterator[Case]:
    """A case that is due otherwise, each time in one thing: a field of its first or last row, its status, its line."""
    assert case.due is not None
    rows = case.due.rows.splitlines()
    for at in {0, len(rows) - 1} if rows else ():
        fields = rows[at].split(",")
        for column, field in enumerate(fields):
            other = another(field, WORDS[case.words[0]].get(column, ()))
            changed = ",".join([*fields[:column], other, *fields[column + 1 :]])
            whole = "\n".join([*rows[:at], changed, *rows[at + 1 :], ""])
            yield Case(f"{case.name}, row {at}, column {column}", case.words, case.data, case.due._replace(rows=whole))
    texts, err = list(TEXTS.values()), case.due.err
    for text in (text for text in texts if err.endswith(f": {text}\n")):
        refused = err.replace(text, texts[(texts.index(text) + 1) % len(texts)])
        yield Case(f"{case.name}, another refusal", case.words, case.data, case.due._replace(err=refused))
    if case.due.code in (5, 6):
        yield Case(f"{case.name}, another line", case.words, case.data, Result("", err[:-2] + "?\n", case.due.code))
        yield Case(f"{case.name}, another status", case.words, case.data, Result("", err, 11 - case.due.code))


def going_back() -> Case:
    """README's example with a reading more, whose time is before that of the last."""
    case = case_of(TOP / "examples" / "approach", "a time that goes back")
    assert case.due is not None
    due = case.due._replace(err="sdm: bad event 5: time back\n", code=7)
    return case._replace(data=case.data + b"read,0,799990,799990,799990,20000,0,0\n", due=due)


def packed_altered() -> list[bytes]:
    """Journeys that are due otherwise than they should be, each packed alone, so that a runner must tell of each."""
    right = [going_back(), *(case_of(TOP / "examples" / name, name) for name in ALTERED)]
    cases = [case for each in right for case in altered(each)]
    return [packed.packed([whole]) for case in cases if (whole := packed.journey(case)) is not None]
