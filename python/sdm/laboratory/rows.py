"""The rows of `sdm run` as text: their columns, and what a column counts in."""
import re

from sdm.laboratory.program import Fault

RowTexts = dict[str, str]  # its values by the names of the columns
LIMITS = "ebi sbi warning permitted indication".split()
COLUMNS = ["time", "state", "status", "tco", "sb", "eb", "covered", "ceiling", *LIMITS]
FORM = re.compile(r"\d+,[CTR],[NIOWX],[01],[01],[01],[01],\d+(,(-|-?\d+)){5}", re.ASCII)
UNITS = {"time": "ds", "ceiling": "km/h"} | dict.fromkeys(LIMITS, "mm")  # the columns that are numbers with a tolerance


def is_row(line: str) -> bool:
    return FORM.fullmatch(line) is not None


def text_of(row: RowTexts) -> str:
    """A row as its line, by its values."""
    return ",".join(row[name] for name in COLUMNS)


def lines_of(text: str, form: re.Pattern[str], kind: str) -> list[re.Match[str]]:
    """The lines of what a command wrote, by the form that each has. Raises Fault of one that has another."""
    lines = []
    for number, line in enumerate(text.splitlines(), 1):
        found = form.fullmatch(line)
        if found is None:
            raise Fault(f"Line {number} of the rows is no {kind}: {line!r}.")
        lines.append(found)
    return lines


def rows_of(text: str) -> list[RowTexts]:
    """The rows of a text, each as its values by the names of the columns."""
    return [dict(zip(COLUMNS, line[0].split(","))) for line in lines_of(text, FORM, "row of sdm run")]
