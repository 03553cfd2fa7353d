"""Runs the built program over each folder of examples/: `args` are its words, one a line, and `input` is its input.
What it writes must be `rows`, to the byte; what it tells of a fault `err`, else nothing; its exit status that of
`code`, else 0. `rows` may be empty only where a fault is due.
"""
from __future__ import annotations

from collections.abc import Iterator
from pathlib import Path

from scripts.pages.part import told
from scripts.product.marks import program_of
from sdm.laboratory.cases import case_of, text_of
from sdm.laboratory.program import TOP, run

EXAMPLES = TOP / "examples"
SHOWN = 10  # lines of what differs


def faults_of(program: Path, folder: Path) -> Iterator[str]:
    """What is wrong with an example, if anything is."""
    if not all((folder / name).is_file() for name in ("args", "input", "rows")):
        yield "has no args, no input or no rows"
        return
    if not text_of(folder / "rows", "") and not text_of(folder / "err", ""):
        yield "has neither rows nor a fault"
        return
    case = case_of(folder, folder.name)
    found, due = run(program, case.words, case.data), case.due
    assert due is not None, "it has rows"
    if found.rows != due.rows:
        yield "the rows differ"
        pairs = zip(due.rows.split("\n"), found.rows.split("\n"))
        yield from [f"  {one!r}, and not {other!r}" for other, one in pairs if one != other][:SHOWN]
    elif found.code != due.code:
        yield f"the code is {found.code} and not {due.code}"
    elif found.err != due.err:
        yield f"the fault line differs: {found.err!r}"


def main(words: list[str]) -> int:
    program = program_of("examples", words)
    folders = sorted(path for path in EXAMPLES.iterdir() if path.is_dir())
    found = [(folder.name, list(faults_of(program, folder))) for folder in folders]
    return told("examples", len(folders), [f"{name}: " + "\n".join(faults) for name, faults in found if faults])
