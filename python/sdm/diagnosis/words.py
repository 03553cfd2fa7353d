"""Which misreading, or which number, explains what a recording has otherwise: tools/diagnose INPUT RECORDING

INPUT is what `sdm run` reads, and RECORDING another computer's, a CSV with its --mapping, as for tools/compare. For the
runs of its differences all misreadings of the profile and all numbers of the data are tried, alone and together, on all
processors. It ends with 0 where nothing differs, with 1 where something does, with 2 where it can't compare.
"""

import argparse
import sys
from fractions import Fraction
from pathlib import Path

from sdm.laboratory.program import Fault, add_program, built, run
from sdm.laboratory.recording import recording_of
from sdm.laboratory.rows import RowTexts, rows_of
from sdm.laboratory.walk import modelled, read

from sdm.diagnosis.diagnosing import diagnosis_of
from sdm.diagnosis.telling import lines_of


def words_of(args: list[str]) -> argparse.Namespace:
    parser = argparse.ArgumentParser(prog="tools/diagnose", description=__doc__.split("\n\n")[0])
    parser.add_argument("input", metavar="INPUT", help="the input of sdm run")
    parser.add_argument("recording", metavar="RECORDING", help="the other computer's recording, a CSV")
    parser.add_argument("--mapping", metavar="FILE", help="maps the recording's columns to a row's, as for compare")
    parser.add_argument("--rows", metavar="FILE", help="what sdm run wrote for INPUT, where it isn't to be run")
    parser.add_argument("--mm", type=Fraction, default=Fraction(2), help="how far places may be apart; 2")
    parser.add_argument("--kmh", type=Fraction, default=Fraction(1, 2), help="how far ceilings may be apart; 0.5")
    parser.add_argument("--ds", type=int, default=0, help="how far times may be apart; 0")
    parser.add_argument("--most", type=int, default=20, metavar="N", help="how many runs are listed; 20")
    parser.add_argument("--jobs", type=int, metavar="N", help="how many processes; one for each processor")
    add_program(parser)
    return parser.parse_args(args)


def rows_for(source: bytes, rows: str | None, program: Path | None) -> list[RowTexts]:
    """The rows of an input: those of a file, or the program's, or where there is none the model's."""
    if rows is not None:
        return rows_of(read(rows).decode(errors="replace"))
    try:
        return rows_of(run(built(program), ["run"], source).rows)
    except Fault:
        if program is not None:
            raise
        return rows_of(modelled(source).rows)


class Shown:
    """Progress on a terminal."""

    def __init__(self) -> None:
        self.width = 0

    def __call__(self, title: str, done: int, of: int) -> None:
        text = f"{title}: {done} of {of} hypotheses" if done < of else ""
        if sys.stderr.isatty():
            print(f"\r{text:{self.width}}", end="\r" if not text else "", file=sys.stderr, flush=True)
            self.width = max(self.width, len(text))


def main(args: list[str]) -> int:
    words = words_of(args)
    allowed = {"mm": words.mm, "km/h": words.kmh, "ds": words.ds}
    try:
        source = read(words.input)
        lines = recording_of(read(words.recording), read(words.mapping) if words.mapping else None)
        found = diagnosis_of(source, rows_for(source, words.rows, words.program), lines, allowed, words.jobs, Shown())
    except Fault as why:
        print(f"diagnose: {why}", file=sys.stderr)
        return 2
    print("\n".join(lines_of(found, words.most)))
    return int(bool(found.runs))
