"""Wrong beliefs, planted in the code: the prover must refuse each.

An edit is a file `crates/NAME/edits/*.edit`, or `crates/NAME/must-fail/*.edit` where `rt ci` shall try it by itself,
too. It is named by what somebody believed who would write this body, and has the form of `rt`:

    # refused-by: sdm_num::Early::less stands
    file: src/bounds.rt
    old: at: self.at.less(grains),
    new: at: self.at.more(grains),

Each `old:` text stands once in its file. The first line names what refuses the edit: a function, as
`CRATE::[TYPE::]FUNCTION`, and a clause of it. A function alone is named where the clause has no name, or where a loop's
invariant refuses the edit. A crate above may refuse an edit: then the function is one of that crate.

What counts as a refusal is a goal of that function and clause that the prover doesn't prove. It is one of these:

- a false goal: "it is not proved that what the function ensures holds when it returns (`returns-clause-stands`)"
- a proof that doesn't fit any more: "proofs/bounds/Early/less/Answers.antt:6:87: error: `returns-clause-stands`: no
  proof of .. was found"; what isn't checked since it depends on such a goal counts with it
- an invariant: of a loop, "`loop-band-preserved`", or of a type, "`invariant_of-self`"

These don't count, since they say nothing of what the function promises:

- a name: "proofs/next/Answers.antt:12:5: error: `returns`: `c.if-over.true` is not in scope", since the edit took away
  what the proof cites
- a `requires` of a function that is called: "`of_cm-requires`"
- a test of safety: an index, a sum that doesn't fit, a division by 0, an `unreachable!`: "`overflow_add-sum`"
- a measure: "`loop-band-smaller`"
- "it calls .., which is not proved"

The parts: `edits` reads the files, `functions` knows what stands in a crate and who calls whom, `planting` puts an edit
into a copy of its function, `batches` puts edits together that one check can tell apart, `provers` runs the check,
`heard` reads what it told, `verdicts` judges each edit by that, and `clauses` knows which clauses of public calls have
an edit."""
from __future__ import annotations
