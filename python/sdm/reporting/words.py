"""Writes the report of a journey or of a comparison, or an overview of a campaign: tools/report INPUT OUT

INPUT is what `sdm run` reads, `-` for standard input; OUT is a page, a file that ends with .html. The program is run
over INPUT, or the model where there is none, or ROWS are taken as what it wrote. With a recording the page compares it
with the rows. Where INPUT is a folder that tools/campaign ran, OUT is an overview, and a page is written beside each of
its journeys up to a number. It ends with 0 where the page is written, with 1 where it can't be, with 2 for bad words.
"""

import argparse
import sys
from fractions import Fraction
from pathlib import Path

from sdm.errors import FormError
from sdm.laboratory.comparison import tolerances
from sdm.laboratory.program import Fault, Result, add_program, built, run
from sdm.laboratory.walk import modelled, read, write

from sdm.reporting.made import ALLOWED, Recorded, Report, Source, program_fact, report_of
from sdm.reporting.overview import write_overview


def source_of(path: str) -> Source:
    """A file that the words name, called by its name and that of its folder."""
    return Source("standard input" if path == "-" else "/".join(Path(path).absolute().parts[-2:]), read(path))


def recorded_of(words: argparse.Namespace) -> Recorded | None:
    """The recording that the words name."""
    if words.recording is None:
        return None
    mapping = source_of(words.mapping) if words.mapping else None
    return Recorded(source_of(words.recording), mapping, words.allowed)


def result_of(words: argparse.Namespace, source: Source) -> tuple[Result, str]:
    """What was run, or taken as it: its result, and what wrote its rows."""
    if words.rows is not None:
        rows = source_of(words.rows)
        text = rows.data.decode(errors="replace")
        return Result(text, "", 0), f"handed in: {rows.fact()}"
    try:
        program = built(words.program)
    except Fault:
        if words.program is not None:
            raise
        return modelled(source.data), "worked out by the model, which only tests compare with the program"
    return run(program, ["run"], source.data), f"written by {program_fact(program)}"


def journey_report(words: argparse.Namespace) -> Report:
    """The report that the words ask for."""
    source = source_of(words.input)
    result, ran = result_of(words, source)
    recorded = recorded_of(words)
    beside = f", beside {recorded.recording.name}" if recorded else ""
    title = words.title or f"sdm run: {source.name}{beside}"
    return report_of(title, source, result, ran, recorded, diagnose=words.diagnose)


def words_of(args: list[str]) -> argparse.Namespace:
    parser = argparse.ArgumentParser(prog="tools/report", description=__doc__.split("\n\n")[0])
    parser.add_argument("input", metavar="INPUT", help="the input of sdm run, - for standard input; or a folder")
    parser.add_argument("out", metavar="OUT", help="the page, a file that ends with .html")
    parser.add_argument("--rows", metavar="FILE", help="what sdm run wrote for INPUT, where it isn't to be run")
    parser.add_argument("--recording", metavar="FILE", help="another computer's recording, a CSV")
    parser.add_argument("--mapping", metavar="FILE", help="maps the recording's columns to a row's, as for compare")
    parser.add_argument("--mm", type=Fraction, default=ALLOWED["mm"], help="how far places may be apart; 2")
    parser.add_argument("--kmh", type=Fraction, default=ALLOWED["km/h"], help="how far ceilings may be apart; 0.5")
    parser.add_argument("--ds", type=int, default=ALLOWED["ds"], help="how far times may be apart; 0")
    parser.add_argument(
        "--diagnose", action="store_true", help="looks for what explains the differences, as tools/diagnose does"
    )
    parser.add_argument("--title", metavar="TEXT", help="the title of the page")
    parser.add_argument(
        "--most", type=int, default=100, metavar="N", help="how many journeys of a folder have a page of their own; 100"
    )
    add_program(parser)
    words = parser.parse_args(args)
    if not words.out.endswith(".html"):
        parser.error(f"OUT is {words.out}, and must end with .html")
    if words.diagnose and not words.recording:
        parser.error("--diagnose is of a recording, which --recording names")
    if words.mapping and not words.recording:
        parser.error("--mapping is of a recording, which --recording names")
    try:
        words.allowed = tolerances(words.mm, words.kmh, words.ds)
    except FormError as why:
        parser.error(str(why))
    return words


def main(args: list[str]) -> int:
    words = words_of(args)
    try:
        if words.input != "-" and Path(words.input).is_dir():
            write_overview(Path(words.input), Path(words.out), words.title, words.most)
        else:
            write(words.out, journey_report(words).html)
    except Fault as why:
        print(f"report: {why}", file=sys.stderr)
        return 1
    return 0
