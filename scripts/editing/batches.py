"""Puts edits into batches: those of a batch are tried in one check.

An edit that is planted in a copy of its function disturbs no other. One that changes a function where it stands may
hide or cause the refusal of another: of one in the same function, and of a function that calls it, since the goals of a
caller may stay untried once what it calls is refused. These two share no batch. One that changes something else than
functions, as a constant that contracts name, has a batch of its own."""
from __future__ import annotations

from collections.abc import Iterable
from dataclasses import dataclass
from functools import cached_property

from scripts.pages.citations import blanked
from scripts.editing.edits import Edit, Unfit
from scripts.editing.functions import Function, below, by_mark, functions
from scripts.editing.planting import edited, is_plantable, whole
from scripts.pages.specs import CRATES


@dataclass(frozen=True)
class Trial:
    """An edit with the function that is to refuse it, in whose crate it is tried, and the clause; with none any will
    do."""

    edit: Edit
    function: Function
    clause: str
    is_marked_anew: bool = False  # whether its file shall say what refuses it

    @property
    def crate(self) -> str:
        return str(self.function.contract.crate())

    @cached_property
    def is_planted(self) -> bool:
        """Whether a copy of the function gets the edit."""
        return self.crate == self.edit.crate and is_plantable(self.edit, self.function)

    @cached_property
    def changed(self) -> set[int] | None:
        """The functions that it changes where they stand, by their places in the list of the crate; none where it
        changes more."""
        return set() if self.is_planted else changed_by(self.edit) if self.crate == self.edit.crate else None

    @cached_property
    def stands_on(self) -> set[int]:
        """The functions that it changes and the one that is to refuse it, with all that these call; of a copy only what
        the function calls."""
        own = functions(self.crate).index(self.function)
        concerned = {own, *(self.changed or ())}
        reached = {k for each in concerned for k in below(self.crate)[each]}
        return reached - {own} if self.is_planted else reached | concerned

    def disturbs(self, other: "Trial") -> bool:
        """Whether it can't share a batch with another."""
        if self.changed is None or other.changed is None:
            return True
        return bool(self.changed & other.stands_on or self.stands_on & other.changed)


def changed_by(edit: Edit) -> set[int] | None:
    """The functions that an edit changes, by their places in the list of its crate; none where it changes more."""
    every, found = functions(edit.crate), set()
    alone = [k for k, each in enumerate(every) if edited(edit, each)]
    if len(alone) == 1:
        return {*alone}
    for change in edit.changes:
        inside = {k for k, each in enumerate(every) if each.file == change.file and has(each, change.old)}
        if not inside and blanked(change.old.strip(), "//").strip():
            return None
        found |= inside
    return found


def has(function: Function, old: str) -> bool:
    """Whether a text that stands once in a function's file is, in part, in the function."""
    start = function.contract.path.read_text().find(old)
    first, last = function.contract.span
    return start >= 0 and bool(first < start + len(old) and start < last)


def trial_of(edit: Edit) -> Trial:
    """An edit with what its file says that refuses it. `rt ci` takes no `old:` text that stands twice in its file."""
    refuser = by_mark(edit.refuser.function, {change.file for change in edit.changes})
    edit.applied(CRATES / edit.crate, whole(refuser) if refuser and not edit.is_for_rt() else "")
    if not refuser:
        raise Unfit(f"there is no function {edit.refuser.function}")
    if edit.refuser.clause and edit.refuser.clause not in refuser.clauses:
        raise Unfit(f"{refuser.marked} has no clause {edit.refuser.clause}")
    return Trial(edit, refuser, edit.refuser.clause)


def unmarked_trial_of(edit: Edit) -> Trial:
    """An edit with the function that it changes, or else that its file names, whatever refuses it there."""
    refuser = by_mark(edit.marked().partition(" ")[0]) if edit.marked() else None
    edit.applied(CRATES / edit.crate, whole(refuser) if refuser and not edit.is_for_rt() else "")
    changed = sorted(changed_by(edit) or ())
    if len(changed) == 1:
        return Trial(edit, functions(edit.crate)[changed[0]], "", True)
    if not refuser:
        raise Unfit("it doesn't change one function: write into its file which one is to refuse it")
    return Trial(edit, refuser, "", True)


def batches(trials: Iterable[Trial]) -> list[list[Trial]]:
    """Few batches of trials of one crate: each goes into the first that it doesn't disturb, those that disturb most
    others first."""
    trials = list(trials)
    weight = {id(each): sum(each.disturbs(other) for other in trials) for each in trials}
    found: list[list[Trial]] = []
    for trial in sorted(trials, key=lambda each: -weight[id(each)]):
        place = next((batch for batch in found if not any(trial.disturbs(other) for other in batch)), None)
        if place is None:
            found.append([trial])
        else:
            place.append(trial)
    return found
