"""Judges an edit by what the prover told of a check with it."""
from __future__ import annotations

from dataclasses import dataclass

from scripts.editing.batches import Trial
from scripts.editing.edits import Edit, Refuser
from scripts.editing.heard import Heard, Kind, Refusal
from scripts.editing.provers import Place


@dataclass(frozen=True)
class Verdict:
    """Whether an edit is refused by the goal that its file names, and why."""

    edit: Edit
    passed: bool
    why: str


def clause_of(refusal: Refusal, trial: Trial) -> str:
    """The clause that a refusal is of: by its goal's name, or the only one that the function has."""
    clauses = set(trial.function.clauses)
    return next(iter(clauses)) if refusal.kind is Kind.CLAUSE and len(clauses) == 1 else refusal.clause()


def fitting(trial: Trial, path: str, told: Heard) -> list[Refusal]:
    """The refusals that count, of the function and the clause that are to refuse an edit."""
    return [each for each in told.of(path) if each.counts() and trial.clause in ("", clause_of(each, trial))]


def judged(trial: Trial, place: Place, told: Heard, is_alone: bool) -> Verdict | None:
    """The verdict on an edit, or none where it wasn't seen and is to be tried alone."""
    found = fitting(trial, place.path, told)
    if place.control and told.is_judged() and not told.is_proved(place.control):
        return Verdict(
            trial.edit, False, f"a copy of {trial.function.marked} as it is isn't proved, so nothing is known"
        )
    if found:
        return Verdict(trial.edit, True, f"`{found[0].goal}`: {found[0].said}")
    state = told.state(place.path)
    is_seen = told.is_judged() and state and (told.is_proved(place.path) or told.of(place.path))
    return Verdict(trial.edit, False, why_not(trial, place.path, told)) if is_alone or is_seen else None


def why_not(trial: Trial, path: str, told: Heard) -> str:
    """Why an edit isn't refused by what its file names."""
    found = told.of(path)
    counted = [each for each in found if each.counts()]
    if told.front():
        return f"it doesn't compile: {told.front()[0][:200]}"
    if not told.is_judged():
        return f"the prover gave no verdict: {(told.said.strip().splitlines() or ['nothing'])[-1][:200]}"
    if counted:
        goals = ", ".join(dict.fromkeys(f"`{each.goal}`" for each in counted))
        return f"another clause of {trial.function.marked} refuses it: {goals}"
    if found:
        return f"it is refused by {found[0].kind.value} alone: `{found[0].goal}`: {found[0].said[:160]}"
    is_proved, state = told.is_proved(path), told.state(path)
    return f"{trial.function.marked} is proved with it" if is_proved else f"{trial.function.marked}: {state}"


def best(trial: Trial, place: Place, told: Heard) -> Refuser:
    """What refuses an edit, as exactly as the prover says it: a clause with a name first."""
    clauses = [clause_of(each, trial) for each in fitting(trial, place.path, told)]
    return Refuser(trial.function.marked, next((name for name in clauses if name in trial.function.clauses), ""))
