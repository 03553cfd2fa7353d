"""Reads what the prover told of a check: which goals of which functions it refused, and why."""
from __future__ import annotations

import re
from dataclasses import dataclass, field
from enum import Enum
from functools import cached_property
from pathlib import Path

from scripts.editing.functions import Function

FUNCTION = re.compile(
    r"^fn (?P<name>\S+): (?P<state>proved|no holes|depends on a hole|not proved|no proof|could not tell)(?P<more>.*)$",
    re.M,
)
PROVED = ("proved", "no holes", "depends on a hole")
LEFT = re.compile(r"`search` did not prove ((?:(?:, | and )?`[^`]+`)+)")
NOTE = re.compile(r"^note: (src/\S+?):(\d+):\d+: (.*?) \(`([^`]+)`\)", re.M)
PROOF = re.compile(r"^(?:\./)?proofs/(\S+)/(\w+)\.antt:(\d+):\d+: error: `([^`]+)`: (.*)$", re.M)
WAITED = re.compile(
    r"^(?:\./)?proofs/(\S+)/\w+\.antt:\d+:\d+: error: \d+ declarations? that depends? on `([^`]+)`, which was rejected,"
    r" (?:was|were) not checked: (.*)$",
    re.M,
)
NAMES = re.compile(r"has no field|is not in scope|has no `|was not admitted|is no name|has no name|unknown name")
DECLARED = re.compile(r"^(?:  )?(pub )?(\S+) :(?=\s)", re.M)  # in a proof file, or in a module of it
FIELD = re.compile(r"\s+(\w+) = ")
FRONT = re.compile(r"^.*\berror\[[\w-]+\].*$", re.M)
VERDICT = re.compile(r"^(?:logic=|only=\d+ )", re.M)


class Kind(Enum):
    """What a goal is about; the first two count."""

    CLAUSE = "what it ensures"
    INVARIANT = "an invariant"
    NAME = "a name"
    REQUIRES = "a `requires`"
    MEASURE = "a measure"
    SAFETY = "safety"


COUNT = (Kind.CLAUSE, Kind.INVARIANT)
KINDS = [
    (Kind.REQUIRES, r"-requires\b"),
    (Kind.MEASURE, r"-smaller\b"),
    (Kind.INVARIANT, r"^invariant_of-|-(?:init|preserved)\b"),
    (Kind.CLAUSE, r"^returns\b"),
]


def kind_of(goal: str) -> Kind:
    """What a goal is about, by its name; what has none of the names of goals is taken for safety."""
    return next((kind for kind, pattern in KINDS if re.search(pattern, goal)), Kind.SAFETY)


@dataclass(frozen=True)
class Refusal:
    """A goal of a function that isn't proved."""

    function: str  # as the prover names it, without the crate
    goal: str
    kind: Kind
    said: str

    def counts(self) -> bool:
        return self.kind in COUNT

    def clause(self) -> str:
        """The clause that the goal is of, where its name has one."""
        found = re.search(r"-clause-(\w+)(?:-whole)?$", self.goal)
        return found[1] if found else ""


@dataclass
class Heard:
    """What the prover told of a check."""

    said: str
    states: dict[str, str] = field(default_factory=dict)  # function -> no holes, not proved, ..
    refusals: list[Refusal] = field(default_factory=list)

    def is_judged(self) -> bool:
        """Whether the prover came to a verdict."""
        return bool(VERDICT.search(self.said))

    def of(self, path: str) -> list[Refusal]:
        """What was refused of a function, by its path below the crate."""
        return [each for each in self.refusals if each.function == path]

    def state(self, path: str) -> str:
        """What was told of a function; nothing where it wasn't."""
        return self.states.get(path, "")

    def is_proved(self, path: str) -> bool:
        """Whether a function is proved, except for the holes in place of the proofs of what it calls."""
        return self.state(path).startswith(PROVED)

    def front(self) -> list[str]:
        """The errors of the front end, which come before any proof."""
        return [] if self.is_judged() else FRONT.findall(self.said)


@dataclass
class Proof:
    """A proof file of a function: its answers, each named as the goal that it is of, and its lemmas."""

    path: Path

    @cached_property
    def text(self) -> str:
        return self.path.read_text() if self.path.is_file() else ""

    @cached_property
    def declared(self) -> dict[str, tuple[int, int]]:
        """The places where each answer and lemma begins and ends in the text."""
        starts = [*DECLARED.finditer(self.text)]
        ends = [*(each.start() for each in starts[1:]), len(self.text)]
        return {each[2]: (each.start(), end) for each, end in zip(starts, ends)}

    @cached_property
    def answers(self) -> set[str]:
        return {each[2] for each in DECLARED.finditer(self.text) if each[1]}

    def at(self, line: int) -> str:
        """What a line belongs to; a lemma of an answer's own is part of it."""
        place = sum(len(each) for each in self.text.splitlines(keepends=True)[: line - 1])
        return next((name for name, (start, end) in self.declared.items() if start <= place < end), "")

    def clause_at(self, line: int) -> str:
        """The clause of a field that a line belongs to, where an answer is a record of clauses."""
        start, _ = self.declared[self.at(line)]
        lines = self.text[start:].splitlines()[: line - self.text.count("\n", 0, start)]
        return next((found[1] for text in reversed(lines) if (found := FIELD.match(text))), "")

    def resting_on(self, name: str) -> list[str]:
        """The answers that cite an answer or a lemma, by way of others, too."""
        citing, open_ = {name}, [name]
        while open_:
            word = re.compile(rf"(?<![\w'.-]){re.escape(open_.pop())}(?![\w'-])")
            found = {other for other, (start, end) in self.declared.items() if word.search(self.text, start, end)}
            open_ += found - citing
            citing |= found
        return [other for other in self.declared if other in citing & self.answers - {name}]


def proof_refusals(folder: Path, of: str, file: str, line: int, said: tuple[str, str]) -> list[Refusal]:
    """What isn't proved by an error in a line of a proof file: what the line answers, and what rests on that."""
    goal, text = said
    proof, path = Proof(folder / "proofs" / of / f"{file}.antt"), of.replace("/", "::")
    is_name = bool(NAMES.search(text))

    def refusal(name: str, why: str) -> Refusal:
        return Refusal(path, name, Kind.NAME if is_name else kind_of(name), why)

    inside = proof.at(line)
    clause = proof.clause_at(line) if goal in proof.answers and goal == inside else ""
    found = [refusal(f"{goal}-clause-{clause}" if clause else goal, text)]
    if inside in proof.answers - {goal}:
        found.append(refusal(inside, f"`{goal}`: {text}"))
    return found + [refusal(other, f"`{goal}`: {text}") for other in proof.resting_on(inside or goal)]


def heard(crate: str, functions: list[Function], said: str, folder: Path = Path()) -> Heard:
    """Reads what the prover told of a check of a crate with these functions, in a folder with its proofs."""
    found = Heard(said)
    for each in FUNCTION.finditer(said):
        name = each["name"].removeprefix(f"{crate}::")
        found.states[name] = each["state"] + each["more"]
        left = LEFT.search(each["more"])
        for goal in re.findall(r"`([^`]+)`", left[1]) if left else []:
            found.refusals.append(Refusal(name, goal, kind_of(goal), "`search` did not prove it"))
    for file, line, text, goal in NOTE.findall(said):
        for function in functions:
            if function.file == file and int(line) in function.lines:
                found.refusals.append(Refusal(function.path, goal, kind_of(goal), text))
    named = set()  # what was rejected for a name alone
    for of, file, line, goal, text in PROOF.findall(said):
        found.refusals += proof_refusals(folder, of, file, int(line), (goal, text))
        named |= {(of, goal)} if NAMES.search(text) else set()
    for of, goal, others in WAITED.findall(said):
        for other in re.split(r", ", others):
            kind = Kind.NAME if (of, goal) in named else kind_of(other)
            found.refusals.append(Refusal(of.replace("/", "::"), other, kind, f"it depends on `{goal}`"))
    return found
