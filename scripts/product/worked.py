"""Holds the built program against the runs of worked/, whose form worked/README.md tells.

    scripts/house check worked                          what the gate runs
    scripts/house check worked --program PATH           another program than crates/sdm/out/sdm
    scripts/house check worked --tables words journeys/fronts    these tables alone
"""
from __future__ import annotations

import argparse
import re
import sys
from pathlib import Path

from scripts.product import journeys
from sdm.laboratory.cases import Case, difference
from sdm.laboratory.program import TOP, Fault, Result, add_program, built, run

WORKED = TOP / "worked"
REPEATED = re.compile(r"\((.*?)\)\*(\d+)")
COUNTED = re.compile(r"(?:(-?\d+)([+-]))?(\d*)#")
SHOWN = 160  # of a longer line no more is shown


def counted(text: str, number: int) -> str:
    """A text with a number in the place of each #, times what stands before it, and with what that is added to or
    taken from."""

    def value(found: re.Match[str]) -> str:
        first, sign, factor = found.groups()
        product = int(factor or 1) * number
        return str(int(first or 0) + (-product if sign == "-" else product))

    return COUNTED.sub(value, text)


def repeated(found: re.Match[str]) -> str:
    """A text so many times, with the number of each, from 1 on, where it has a #."""
    text, count = found[1], int(found[2])
    return "".join(counted(text, number + 1) for number in range(count)) if "#" in text else text * count


def signs(field: str) -> str:
    """The text that a field writes in signs."""
    return "" if field == "-" else REPEATED.sub(repeated, field).replace("/", "\n").replace("~", "\r")


def replaced(name: str, lines: list[str], old: str, new: str) -> list[str]:
    """The lines of a file, with another text for each that is the old one; where none is, in the first place where it
    stands in one."""
    if old in lines:
        return [new if line == old else line for line in lines]
    number = next((number for number, line in enumerate(lines) if old in line), None)
    if number is None:
        raise Fault(f"{name} has no `{old}`.")
    return [*lines[:number], lines[number].replace(old, new, 1), *lines[number + 1 :]]


def changed(name: str, changes: list[str]) -> str:
    """The text of a file with changes."""
    lines = (WORKED / name).read_text().splitlines()
    for change in changes:
        old, new = (side.strip() for side in change.split(">"))
        lines = replaced(name, lines, old, signs(new))
    return "".join(f"{line}\n" for line in lines)


def text_of(field: str) -> str:
    """The text of a field: that of a file with changes, or of its signs."""
    name, *changes = field.split(";")
    return changed(name, changes) if name.endswith(".toml") else signs(field)


def case_of(name: str, line: str) -> Case:
    """The run of a line of a table."""
    fields = [field.strip() for field in line.split(" | ")]
    if len(fields) != 6:
        raise Fault(f"{name} has {len(fields)} fields and not 6.")
    words, data, after, rows, code, err = fields
    try:
        given = text_of(data) + signs(after)
        due = Result(text_of(rows), signs(err), int(code))
    except Fault as why:
        raise Fault(f"{name}: {why}") from None
    return Case(name, words.split() if words != "-" else [], given.encode(), due)


def tables() -> list[str]:
    """The names of all tables, those of journeys with the folder that they are in."""
    return sorted(path.relative_to(WORKED).with_suffix("").as_posix() for path in WORKED.rglob("*.txt"))


def cases_of(table: str) -> list[Case]:
    """The runs of a table, by its name and the numbers of their lines."""
    path = WORKED / f"{table}.txt"
    if table.startswith("journeys/"):
        cases = list(journeys.cases_in(path, table, WORKED / "base.toml", signs))
    else:
        lines = enumerate(path.read_text().splitlines(), 1)
        cases = [case_of(f"{table}:{number}", line) for number, line in lines if line and not line.startswith("#")]
    if not cases:
        raise Fault(f"{table} has no run.")
    return cases


def differs(program: Path, case: Case) -> bool:
    """Whether the program answers a run otherwise than it should, which is told."""
    found = run(program, case.words, case.data)
    if case.due is None or found == case.due:
        return False
    lines = difference(("worked", "program"), case.due, found)
    print(
        "\n".join([f"{case.name}: {' '.join(case.words) or '(no words)'}", *(line[:SHOWN] for line in lines)]),
        flush=True,
    )
    return True


def main(args: list[str]) -> int:
    parser = argparse.ArgumentParser(prog="scripts/house check worked", description=__doc__.split("\n\n")[0])
    add_program(parser)
    parser.add_argument("--tables", nargs="+", metavar="NAME", help="these tables alone, each without its .txt")
    words = parser.parse_args(args)
    try:
        program = built(words.program)
        answers = [differs(program, case) for table in words.tables or tables() for case in cases_of(table)]
    except BrokenPipeError:
        raise
    except (Fault, OSError) as why:
        print(f"check worked: {why}", file=sys.stderr)
        return 1
    print(f"worked: {answers.count(False)} passed, {answers.count(True)} failed")
    return int(any(answers) or not answers)
