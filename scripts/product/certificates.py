"""Certifies each journey of examples/ by the built program, as many readings as can be, and checks what was written:
each claim must be answered by yes. An opening that is refused has nothing to check.
"""
from __future__ import annotations

from pathlib import Path

from scripts.pages.part import told
from scripts.product.marks import program_of
from sdm.laboratory.cases import Case, cases_under
from sdm.laboratory.program import TOP, run

MOST, REFUSED = "1000", ("sdm: bad data", "sdm: refused")
SHOWN = 5  # answers that aren't yes


def claims_of(program: Path, case: Case) -> tuple[int, str]:
    """How many claims of a journey are answered by yes, and what is wrong, if anything is."""
    text = run(program, ["certify", MOST], case.data)
    if not text.rows:
        return 0, "" if text.err.startswith(REFUSED) else "nothing was certified"
    due = sum(line.startswith("claim,") for line in text.rows.splitlines())
    answer = run(program, ["check"], text.rows.encode())
    answers = answer.rows.splitlines()
    if answer.code == 0 and len(answers) == due and all(line.endswith(",yes") for line in answers):
        return due, ""
    others = [line for line in answers if not line.endswith(",yes")][:SHOWN]
    return 0, "\n".join([f"not all of its {due} claims are answered by yes", *others, answer.err]).rstrip()


def main(words: list[str]) -> int:
    program = program_of("certificates", words)
    cases = [case for case in cases_under(TOP / "examples") if case.words in (["run"], ["display"])]
    found = [(case.name, *claims_of(program, case)) for case in cases]
    certified = [claims for _, claims, _ in found if claims]
    faults = [f"{name}: {fault}" for name, _, fault in found if fault]
    if not certified:
        faults.append("no claim was checked")
    print(f"certificates: {sum(certified)} claims of {len(certified)} examples answered by yes")
    return told("certificates", len(certified) + len(faults), faults)
