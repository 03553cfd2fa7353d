"""`scripts/house check edits` tells which edits aren't refused by the goal that their files name, over the crates of
edited.txt and over what the prover told of others."""

from __future__ import annotations

import tempfile
import unittest
from pathlib import Path

from scripts.editing.heard import Kind, heard, kind_of
from scripts.tests import copies

PROVER_SECONDS = 1200  # a minute of processor time on one that nothing else uses

# edit -> what refuses it by its file, its changes, and what must be told
FAULTS = {
    "other_order": ("low::more value", "    n + 1", "    1 + n", "low::more is proved with it"),
    "five_is_less": ("low::at_least_5 least", "if n < 5 {", "if n < 6 {", "it is refused by a name alone: `returns`"),
    "same_number": ("low::more small", "    n + 1", "    n", "another clause of low::more refuses it"),
    "one_past_the_greatest": ("low::first", "more(0)", "more(100)", "it is refused by a `requires` alone"),
    "another_function": ("low::more value", "    next + 1", "    next", "low::more is proved with it"),
    "not_there": ("low::more value", "    n + 17", "    n", "`n + 17` is 0 times in src/lib.rt"),
    "no_such_name": ("low::more value", "    n + 1", "    n + x", "it doesn't compile"),
    "no_such_clause": ("low::more values", "    n + 1", "    n", "low::more has no clause values"),
    "unmarked": ("", "    n + 1", "    n", "its file has no line `# refused-by:`"),
}
GOALS = {
    "returns-then-grains-clause-value": Kind.CLAUSE,
    "loop-band-preserved": Kind.INVARIANT,
    "invariant_of-self-in_err-insert": Kind.INVARIANT,
    "loop-band-smaller": Kind.MEASURE,
    "of_cm-requires-clause-range": Kind.REQUIRES,
    "overflow_add-sum": Kind.SAFETY,
    "bounds-cells-k": Kind.SAFETY,
}
# A proof that names what is gone, what rests on it, and a goal that isn't proved beside it.
TOLD = """./proofs/judge/Answers.antt:23:5: error: `returns-clause-held`: `c.early` is not in scope
./proofs/judge/Answers.antt:25:5: error: 1 declaration that depends on `returns-clause-held`, which was rejected, was \
not checked: returns-clause-after
fn low::judge: no proof: expected answers in ./proofs/judge/Answers.antt; `search` did not prove `returns-clause-status`
fn low::row: no proof: it calls `low::judge`, which is not proved
only=2 proved=0
"""
# A proof file with a lemma, an answer that is a record of clauses, and one that cites the lemma.
PROOF = """same : (c : goal.After-k) → c.k ≡ c.n
same c = refl

pub returns : goal.returns
returns c =
    let held = same c in
    record {
      early = held;
      held = refl;
    }

pub loop-k-preserved : goal.loop-k-preserved
loop-k-preserved c = same c
"""


def repository(top: Path) -> None:
    """Puts the files of edited.txt into a copy, each below its path there."""
    for part in (top / "scripts" / "tests" / "edited.txt").read_text().split("\n== ")[1:]:
        name, _, text = part.partition("\n")
        (top / name).parent.mkdir(parents=True, exist_ok=True)
        (top / name).write_text(f"{text.rstrip()}\n")


class Edits(unittest.TestCase):
    def test_each_fault_is_told(self) -> None:
        with copies.a_copy(["scripts"]) as top:
            repository(top)
            for name, (refuser, old, new, _) in FAULTS.items():
                mark = f"# refused-by: {refuser}\n" if refuser else ""
                text = f"{mark}file: src/lib.rt\nold: {old}\nnew: {new}\n"
                (top / "crates" / "low" / "edits" / f"{name}.edit").write_text(text)
            status, told = copies.ended(top, "scripts/house", "check", "edits", "--jobs", "1", seconds=PROVER_SECONDS)
        for name, (*_, why) in FAULTS.items():
            with self.subTest(name):
                self.assertIn(f"low/{name}: FAILED: {why}", told)
        self.assertEqual(status, 1, told)
        # those that lie there pass: of functions, one of which calls another, of a text that stands twice in its file,
        # and of a constant of a crate below
        self.assertIn(f"edits: 6 passed, {len(FAULTS)} failed", told.splitlines())

    def test_no_edit_is_a_fault(self) -> None:
        with copies.a_copy(["scripts"]) as top:
            repository(top)
            for path in top.glob("crates/*/*/*.edit"):
                path.unlink()
            self.assertEqual(copies.ended(top, "scripts/house", "check", "edits")[0], 1)

    def test_only_what_a_function_promises_counts(self) -> None:
        for goal, kind in GOALS.items():
            self.assertEqual(kind_of(goal), kind, goal)

    def test_what_a_name_keeps_from_being_checked_is_no_refusal(self) -> None:
        told = heard("low", [], TOLD)
        counted = [each.goal for each in told.of("judge") if each.counts()]
        self.assertEqual(counted, ["returns-clause-status"])
        self.assertEqual(told.of("row"), [])

    def test_an_error_in_a_proof_is_one_of_the_goals_that_rest_on_it(self) -> None:
        with tempfile.TemporaryDirectory() as scratch:
            file = Path(scratch) / "proofs" / "judge" / "Answers.antt"
            file.parent.mkdir(parents=True)
            file.write_text(PROOF)
            for line, goal, expected in (
                (2, "same", ["returns", "loop-k-preserved"]),
                (9, "returns", ["returns-clause-held"]),
                (6, "returns", ["returns"]),
            ):
                said = f"./proofs/judge/Answers.antt:{line}:5: error: `{goal}`: the two types differ\n"
                told = heard("low", [], said, Path(scratch)).of("judge")
                self.assertEqual([each.goal for each in told if each.counts()], expected)
