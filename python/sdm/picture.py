"""Draws the picture of a journey: tools/plot INPUT ROWS OUT [WORDS...]

INPUT is the input that `sdm` read (`-` for standard input), ROWS are the rows that it wrote for it. OUT is the picture,
an SVG or a PNG by its ending. WORDS are the words that `sdm` ran with: `run`, which is taken where none are given,
`display`, `check`, `flat A END`, or `drive NUMBER CYCLES`, of which the readings are the model's and ROWS are the five
lines. A journey that is refused midway is drawn up to there. What a picture shows, and how it is read, is in
tools/README.md.
"""

from __future__ import annotations

import argparse
import base64
import hashlib
import os
import subprocess
import sys
from collections.abc import Callable
from dataclasses import dataclass, field
from pathlib import Path
from typing import TYPE_CHECKING

import sdm
from sdm.drawing.certificate import check_journey
from sdm.drawing.drive import drive_journey
from sdm.drawing.journey import display_journey, flat_journey, run_journey
from sdm.drawing.places import place_panel
from sdm.drawing.sheet import BETWEEN, HEIGHT, NOTE, WIDTH, Sheet
from sdm.drawing.strips import height_of, strip_panel
from sdm.drawing.values import DrawnJourney, Span, Window
from sdm.errors import FormError
from sdm.laboratory.program import Fault
from sdm.laboratory.walk import read
from sdm.exact import Outcome, number_word
from sdm.records import Data, input_of

if TYPE_CHECKING:
    from sdm.arrays import Items
    from sdm.runs import Records

TERMINALS = {".svg": "svg", ".png": "pngcairo fontscale 0.75"}
ALL = (float("-inf"), float("inf"))
MOST_NOTES = 8  # rows that the model has otherwise, that are told
LEAST_PIXELS, MOST_PIXELS = (480, 400), 8_000
JOURNEYS = {"run": run_journey, "display": display_journey, "check": check_journey}  # of the commands that are one word
NUMBERED: dict[str, tuple[Callable[..., DrawnJourney], tuple[int, int], tuple[int, int], str]] = {
    # of those with two numbers: the journey, the range of each, and how it is told
    "flat": (flat_journey, (5, 400), (0, 10_000_000), "A is 5 to 400 cm/s², END is 0 to 10,000,000 cm"),
    "drive": (drive_journey, (0, 65_535), (1, 100_000), "NUMBER is 0 to 65,535, CYCLES is 1 to 100,000"),
}


def write(path: str, picture: bytes) -> None:
    """Writes the bytes of the picture."""
    try:
        Path(path).write_bytes(picture)
    except OSError as why:
        raise Fault(f"{path} can't be written: {why.strerror}.") from None


def sheet_of(journey: DrawnJourney, size: tuple[int, int] | None, title: str) -> Sheet:
    """The sheet of a picture: its notes say of the first rows that the model has otherwise which columns, and how
    much. Where no size is given, it is higher by them."""
    notes = journey.notes[:MOST_NOTES]
    more = len(journey.notes) - len(notes)
    notes += [f"and {more} rows more"] * bool(more)
    width, height = size or (WIDTH, HEIGHT + NOTE * len(notes))
    return Sheet(width, height, title, tuple(notes))


def script_of(
    journey: DrawnJourney,
    form: str,
    places: Span | None = None,
    speeds: Span | None = None,
    size: tuple[int, int] | None = None,
    title: str = "",
) -> str:
    """The script for gnuplot of a picture of a form, .svg or .png: both panels, one above the other."""
    sheet = sheet_of(journey, size, title)
    terminal = f"{TERMINALS[form]} size {sheet.width},{sheet.height}"
    lines = [
        "set encoding utf8",
        f"set terminal {terminal} font 'sans-serif,12' noenhanced background '#FFFFFF'",
        "set multiplot; set tics nomirror; set border lw 0.8",
    ]
    lines += place_panel(journey, sheet, height_of(journey, sheet) + BETWEEN, places, speeds)
    return "\n".join(lines + strip_panel(journey, sheet) + ["unset multiplot"]) + "\n"


def title_of(words: list[str], readings: int, **texts: bytes) -> str:
    """What a picture says of itself: the words, the readings, the version, and the beginnings of SHA-256 sums."""
    sums = ", ".join(f"{name} {hashlib.sha256(text).hexdigest()[:12]}" for name, text in texts.items())
    return f"{' '.join(['sdm', *words])}: {readings:,} readings; sdm {sdm.__version__}; SHA-256 of {sums}"


def drawn(script: str, title: str) -> bytes:
    """The bytes of the picture that gnuplot draws; settings of the user's own are passed over."""
    try:
        done = subprocess.run(["gnuplot", "-d", "-"], input=script.encode(), capture_output=True)
    except FileNotFoundError:
        raise Fault("gnuplot is not installed; scripts/setup installs it.") from None
    if done.returncode != 0 or not done.stdout:
        raise Fault("gnuplot failed: " + " ".join(done.stderr.decode(errors="replace").split()))
    return done.stdout.replace(b"<title>Gnuplot</title>", b"<title>" + title.encode() + b"</title>", 1)


def journey_of(words: argparse.Namespace, source: bytes, rows: str) -> DrawnJourney:
    """The journey of an input and its rows, for the words."""
    window = Window(words.times, words.places)
    if len(words.words) == 1:
        return JOURNEYS[words.words[0]](source, rows, window)
    return NUMBERED[words.words[0]][0](source, rows, *map(int, words.words[1:]), window)


@dataclass(frozen=True)
class Picture:
    """A picture as SVG, which a notebook shows, and keeps where it is exported as HTML."""

    svg: bytes = field(repr=False)
    script: str = field(default="", repr=False)  # for gnuplot

    def _repr_html_(self) -> str:
        return f'<img alt="a journey" src="data:image/svg+xml;base64,{base64.b64encode(self.svg).decode()}">'

    def save(self, path: str | os.PathLike[str]) -> None:
        """Writes it to a file, an SVG or a PNG by its ending. FormError where it has another one."""
        ending = Path(path).suffix
        if ending not in TERMINALS:
            raise FormError(f"{os.fspath(path)} ends with {ending!r}, expected {' or '.join(TERMINALS)}")
        is_png = ending == ".png"
        script = self.script.replace(f"set terminal {TERMINALS['.svg']}", f"set terminal {TERMINALS['.png']}", 1)
        Path(path).write_bytes(drawn(script, "") if is_png else self.svg)


def plot(
    data: Data,
    records: Records,
    rows: Items | None = None,
    *,
    times: tuple[float, float] = ALL,
    places: tuple[float, float] | None = None,
    speeds: tuple[float, float] | None = None,
    size: tuple[int, int] | None = None,
    title: str = "",
) -> Picture:
    """The picture of a journey: times in s, places in m and speeds in km/h draw a part of it. Its size is in pixels; a
    title stands above it. Where no rows are given, the journey is run. Raises Fault where the rows are not as many as
    the readings or have other times, and where gnuplot is missing."""
    from sdm.arrays import records_in, text
    from sdm.runs import run

    held = records_in(records)
    shown = run(data, held) if rows is None else rows
    journey = run_journey(input_of(data, held), text(shown), Window(times, places))
    script = script_of(journey, ".svg", places, speeds, size, title)
    return Picture(drawn(script, f"sdm run: {len(journey.readings)} readings"), script)


def words_of(args: list[str]) -> argparse.Namespace:
    parser = argparse.ArgumentParser(prog="tools/plot", description=__doc__.split("\n\n")[0])
    parser.add_argument("input", metavar="INPUT", help="what sdm read, - for standard input")
    parser.add_argument("rows", metavar="ROWS", help="the rows that it wrote")
    parser.add_argument("out", metavar="OUT", help="the picture, a file that ends with .svg or .png")
    parser.add_argument(
        "words",
        metavar="WORDS",
        nargs="*",
        help="the words of sdm: run, display, check, flat A END, or drive NUMBER CYCLES; run where there are none",
    )
    parser.add_argument(
        "--times",
        nargs=2,
        type=float,
        metavar=("FROM", "TO"),
        default=ALL,
        help="the readings between two times in s alone",
    )
    parser.add_argument("--places", nargs=2, type=float, metavar=("FROM", "TO"), help="the places that are shown, in m")
    parser.add_argument(
        "--speeds", nargs=2, type=float, metavar=("FROM", "TO"), help="the speeds that are shown, in km/h"
    )
    parser.add_argument(
        "--size",
        nargs=2,
        type=int,
        metavar=("WIDTH", "HEIGHT"),
        help=f"the size in pixels, {WIDTH} {HEIGHT} where it isn't said",
    )
    parser.add_argument(
        "--title",
        metavar="TEXT",
        help="the text above the picture, '' for none; where it isn't said, the words, the version and the digests of "
        "INPUT and ROWS",
    )
    words = parser.parse_args(args)
    words.words = words.words or ["run"]
    if Path(words.out).suffix not in TERMINALS:
        parser.error(f"OUT is {words.out}, and must end with {' or '.join(TERMINALS)}")
    for name in ("times", "places", "speeds"):
        part = getattr(words, name)
        if part and not part[0] < part[1]:
            parser.error(f"--{name} is {part[0]:g} to {part[1]:g}: the first must be below the second")
    words.size = words.size and (words.size[0], words.size[1])
    if words.size and any(not least <= size <= MOST_PIXELS for least, size in zip(LEAST_PIXELS, words.size)):
        parser.error(f"--size is {LEAST_PIXELS[0]} to {MOST_PIXELS} by {LEAST_PIXELS[1]} to {MOST_PIXELS} pixels")
    if len(words.words) > 1 or words.words[0] not in JOURNEYS:
        number_words(words.words, parser)
    return words


def number_words(words: list[str], parser: argparse.ArgumentParser) -> None:
    """Refuses words that are none of a journey with readings."""
    if words[0] not in NUMBERED or len(words) != 3:
        parser.error(
            f"the words of sdm are {' '.join(words)!r}, and must be 'run', 'display', 'check', 'flat A END' or "
            "'drive NUMBER CYCLES'; 'trial' has no readings to draw"
        )
    _, *ranges, told = NUMBERED[words[0]]
    try:
        for word, (least, most) in zip(words[1:], ranges):
            number_word(word, least, most)
    except Outcome:
        parser.error(f"{' '.join(words)!r}: {told}")


def main(args: list[str]) -> int:
    words = words_of(args)
    try:
        source, rows = read(words.input), read(words.rows)
        journey = journey_of(words, source, rows.decode(errors="replace"))
        count = len(journey.readings)
        title = title_of(words.words, count, input=source, rows=rows) if words.title is None else words.title
        script = script_of(journey, Path(words.out).suffix, words.places, words.speeds, words.size, title)
        write(words.out, drawn(script, f"{' '.join(['sdm', *words.words])}: {count} readings"))
        if journey.note:
            print(f"plot: {journey.note}; tools/why tells of a row why it is as the model has it.", file=sys.stderr)
    except Fault as why:
        print(f"plot: {why}", file=sys.stderr)
        return 1
    return 0
