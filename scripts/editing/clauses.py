"""Which clauses of public calls have an edit that they refuse, and which have none."""
from __future__ import annotations

from scripts.editing.edits import Refuser, all_edits
from scripts.editing.functions import functions
from scripts.pages.specs import crates


def public_clauses() -> list[Refuser]:
    """The clauses of public calls, lowest crate first; those without a name are the call's. Laws have no body."""
    return list(
        dict.fromkeys(
            Refuser(function.marked, clause)
            for crate in crates()
            for function in functions(crate)
            if function.contract.public and not function.contract.is_law()
            for clause in function.clauses
        )
    )


def without_edit() -> list[Refuser]:
    """Those that no edit's file names."""
    marked = {edit.marked() for edit in all_edits()}
    return [each for each in public_clauses() if str(each) not in marked]
