"""Writes and checks what is known of each definition of the specs/ folders: docs/definitions.csv has a row for each,
docs/definitions.html shows the same rows in a browser, filtered and sorted, and docs/DEFINITIONS.md prints those that
carry a clause of the standard, and what the claims `supervisor` and `C` reach beside them and the program.

    scripts/house write definitions    writes the three
    scripts/house check definitions    fails where a definition has no source or no comment, where the data lack its
                                       row or have one of what is gone, and where a file isn't, to the byte, what would
                                       be written
"""
from __future__ import annotations

import csv
import io
import json
from collections.abc import Iterator
from dataclasses import asdict, astuple, fields
from itertools import groupby, zip_longest
from pathlib import Path

from scripts.pages.believed import COMMANDS
from scripts.pages.matrix import Matrix, Row
from scripts.pages.part import SHOWN, Part, shown, told
from scripts.pages.specs import ROOT

DATA = ROOT / "docs" / "definitions.csv"
PAGE = ROOT / "docs" / "definitions.html"
TEMPLATE = Path(__file__).with_name("definitions.html")
WRITER = "scripts/house write definitions"
PART = Part(
    "definitions",
    ROOT / "docs" / "DEFINITIONS.md",
    f"<!-- The tables from here on are written by {WRITER}. -->",
    "",
    WRITER,
)
COLUMNS = [field.name for field in fields(Row)]


def data_of(rows: list[Row]) -> str:
    """The rows as CSV."""
    text = io.StringIO()
    writer = csv.writer(text, lineterminator="\n")
    writer.writerow(COLUMNS)
    writer.writerows(astuple(row) for row in rows)
    return text.getvalue()


def rows_of(text: str) -> list[Row]:
    """The rows of a CSV."""
    return [Row(**row) for row in csv.DictReader(io.StringIO(text))]


def page_of(rows: list[Row]) -> str:
    """The page for a browser, with the rows in it: it works from a disk, where a page may read no other file."""
    lines = ",\n".join(json.dumps(list(asdict(row).values()), ensure_ascii=False) for row in rows)
    return TEMPLATE.read_text().replace("/* rows */", lines.replace("</", "<\\/"))


def printed(row: Row) -> str:
    """The line of a table of the printed page."""
    meaning = row.meaning.replace("|", "\\|")
    return f"| `{row.name}` | {row.source} | {meaning} | {row.contract} | {row.shown_by or 'none'} |"


def tables(rows: list[Row]) -> str:
    """What the printed page has of the rows."""
    clauses = [row for row in rows if row.has_clause()]
    others = [row for row in rows if row.is_of("supervisor", "C") and not row.is_of(*COMMANDS) and not row.has_clause()]
    out = [
        "",
        "### Definitions with a clause",
        "",
        f"{len(clauses)} of {len(rows)} definitions are meant as a clause of SUBSET-026-3, or simplified from one.",
        *sections(clauses),
        "",
        "### What callers believe beside",
        "",
        f"{len(others)} definitions that the claims *supervisor* and *C* reach, though no command of the program does.",
        *sections(others),
    ]
    return "\n".join(out) + "\n"


def sections(rows: list[Row]) -> Iterator[str]:
    """Rows by file, with a table for each."""
    for file, group in groupby(rows, key=lambda row: row.file):
        yield from ("", f"#### {file}", "")
        yield from ("| Definition | Source | Meaning | Contract | Shown by |", "|---|---|---|---|---|")
        yield from map(printed, group)


def stale(path: Path, text: str) -> list[str]:
    """The first lines of a file that aren't as they would be written."""
    there = path.read_text().splitlines() if path.exists() else []
    pairs = enumerate(zip_longest(there, text.splitlines()), 1)
    differ = [(number, *pair) for number, pair in pairs if pair[0] != pair[1]]
    return [
        f"{path.relative_to(ROOT)}:{number}: stale, run {WRITER}: has {shown(old, new)}, not {shown(new, old)}"
        for number, old, new in differ[:SHOWN]
    ]


def data_faults(rows: list[Row]) -> list[str]:
    """Rows that are missing, and rows of what is gone, by their names."""
    named = {(row.file, row.name) for row in rows_of(DATA.read_text())} if DATA.exists() else set()
    there = {(row.file, row.name) for row in rows}
    missing = [f"docs/definitions.csv: no row for {name} of {file}" for file, name in sorted(there - named)]
    gone = [f"docs/definitions.csv: names {name} of {file}, which is gone" for file, name in sorted(named - there)]
    return missing + gone


def main(words: list[str]) -> int:
    matrix = Matrix()
    rows = matrix.rows()
    if words == ["write"]:
        DATA.write_text(data_of(rows))
        PAGE.write_text(page_of(rows))
        PART.write(tables(rows))
        return 0
    for path, name in matrix.uncited():
        print(f"note: nothing cites {name} of {path.relative_to(ROOT).as_posix()}")
    found = [*matrix.faults(), *data_faults(rows)]
    found = found or [*stale(DATA, data_of(rows)), *stale(PAGE, page_of(rows)), *PART.faults(tables(rows))]
    return told("definitions", len(rows), found)
