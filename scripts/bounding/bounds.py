"""Bounds the calls of the library for C, by its machine code: the stack of each but the opening, and the
instructions, divisions and accesses to memory that it runs at most. How often a loop turns is what
scripts/bounds.toml says.

    scripts/house show bounds [LIBRARY]                  prints the bounds of each call, with the path of its stack
    scripts/house write bounds [LIBRARY]                 puts them into docs/FROM-C.md and docs/INTEGRATION.md
    scripts/house show bounds loops [LIBRARY]            prints the rows of scripts/bounds.toml, with the walks that
                                                         are known
    scripts/house show bounds show FUNCTION [LIBRARY]    prints the loops of a function, instruction by instruction
    scripts/house check bounds [LIBRARY]                 fails where a call isn't bounded, a loop has no row or a row
                                                         no loop, or the pages have other numbers

LIBRARY is an archive or an object; without it the library that scripts/house library built and marked."""
from __future__ import annotations

import sys
from pathlib import Path

from scripts.bounding import page, table
from scripts.bounding.calls import Bounds, bounded, run_by
from scripts.bounding.code import Refused, printed
from scripts.bounding.library import Known, Library
from scripts.bounding.objects import defining
from scripts.bounding.table import Bad, Table, clause_faults, row_faults, rows_anew
from scripts.bounding.work import COUNTS, Work
from scripts.c import header
from scripts.pages.part import told
from scripts.pages.specs import ROOT
from scripts.product.marks import must_hold
from sdm.laboratory.program import LIBRARY, Fault

TABLE = ROOT / "scripts" / "bounds.toml"
COMPILER = ["cc", "-print-libgcc-file-name"]


def library_of(path: Path, rows: Table) -> Library:
    """The functions of a library, with those that it asks of others."""
    library = Library(outside={name: each.stack for name, each in rows.outside.items()})
    library.outside |= dict.fromkeys(rows.heap, 0)
    library.add(path)
    return library


def outside_faults(rows: Table) -> list[str]:
    """Where the C compiler's own functions take more than the table says."""
    path = Path(printed(*COMPILER).strip())
    faults = []
    for name, each in rows.outside.items():
        if not each.is_counted:
            continue
        library = Library()
        library.add(path, defining(path, name))
        due = {"stack": each.stack} | {kind: getattr(each, kind) for kind in COUNTS}
        takes = {"stack": library.stack(name).depth}
        takes |= {kind: Work(library, rows.turns, count).of(name) for kind, count in COUNTS.items()}
        faults += [
            f"{name} of {path.name}: {takes[kind]} {kind}, the table has {due[kind]}"
            for kind in due
            if takes[kind] > due[kind]
        ]
    return faults


def shown(each: Bounds) -> str:
    """The bounds of a call as lines."""
    lines = [f"{each.call}:"]
    if each.stack is not None:
        lines.append(
            f"    {each.stack.depth} bytes of stack: " + " > ".join(f"{at} {name}" for name, at in each.stack.path)
        )
    lines += [f"    {most:,} {kind}" for kind, most in each.counts.items()]
    lines += [f"    {most:,} calls of {name}" for name, most in each.outside.items() if most]
    lines += [f"    by no clause: {walk}" for walk in each.unproved]
    return "\n".join([*lines, *(f"    refused: {why}" for why in each.refused)])


def show(name: str, known: Known) -> None:
    """Prints the loops of a function."""
    for loop in known.loops():
        entries = ", ".join(f"{known.function.code[k].at:#x}" for k in sorted(loop.entries))
        print(f"loop {loop.number}, {loop.shape}, of {name}, entered at {entries}:")
        for k in sorted(loop.nodes):
            each = known.function.code[k]
            inner = sum(k in other.nodes for other in known.loops()) - 1
            print(f"    {each.at:6x}{'  ' * inner}  {each.name} {each.operands} {each.callee or ''}")
    code = known.function.code
    print(f"{name}: {len(code)} instructions, {known.frame.deepest} bytes of stack by itself")
    for callee, depth in sorted(known.frame.calls.items()):
        print(f"    calls {callee}, {depth} bytes down")


def checked(rows: Table, found: list[Bounds], functions: dict[str, Known]) -> int:
    """Tells what is wrong with the bounds, the table and the pages; the exit status."""
    for each in found:
        print(shown(each))
    faults = [f"{each.call}: {why}" for each in found for why in each.refused]
    faults += [*clause_faults(rows), *row_faults(rows, functions), *outside_faults(rows)]
    if not faults:
        faults += page.TABLE.faults(page.part(found, rows)) + page.SENTENCE.faults(page.sentence(found))
    return told("bounds", len(found), faults)


def done(word: str, function: str, library: Path | None) -> int:
    """Does what the words ask for; the exit status."""
    if library is None:
        must_hold(LIBRARY)
    rows = table.read(TABLE)
    known = library_of(library or LIBRARY.path, rows)
    if word == "show":
        show(function, known.must_know(function))
        return 0
    found = bounded(known, rows, [call.name for call in header.calls(header.text())])
    functions = run_by(known, [each.call for each in found])
    match word:
        case "check":
            return checked(rows, found, functions)
        case "loops":
            print("\n".join(rows_anew(rows, functions)))
        case "write":
            page.TABLE.write(page.part(found, rows))
            page.SENTENCE.write(page.sentence(found))
        case _:
            print("\n".join(map(shown, found)))
    return 0


def main(words: list[str]) -> int:
    match words:
        case ["show", function, *rest]:
            word = "show"
        case ["check" | "loops" | "write" as word, *rest]:
            function = ""
        case rest:
            word = function = ""
    if len(rest) > 1 or any(each.startswith("-") for each in rest):
        print(__doc__.strip(), file=sys.stderr)
        return 2
    try:
        return done(word, function, Path(rest[0]) if rest else None)
    except (Bad, Fault, Refused) as why:
        print(f"bounds: {why}", file=sys.stderr)
        return 1
