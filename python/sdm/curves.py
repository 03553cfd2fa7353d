"""The curves and limits of the targets at a row of `sdm run`, over speed, as CSV: tools/curves INPUT N --step 1 > csv

N counts the rows from 1. Places are in mm, rounded down as the program prints them; a field is empty where a target has
no such curve or limit. The acceleration and the under-reading amount are those of row N where none are given.
"""

import argparse
import csv
import sys
from collections.abc import Iterator
from fractions import Fraction
from typing import TextIO

from sdm.laboratory.program import Fault
from sdm.laboratory.walk import at_row, at_speed, read
from sdm.exact import NOTCHES_PER_KM_H, Number, Reading, Supervisor, Target, dV_ebi, printed

COLUMNS = "target,place,target_speed,speed,EBD,SBD,guidance,EBI,SBI1,SBI2,W,P,I".split(",")

NAMES = {"Mrsp": "MRSP", "Loa": "LOA", "Eoa": "EOA", "Svl": "SvL"}


def row_of(supervisor: Supervisor, reading: Reading, target: Target, kmh: Fraction) -> list[str | int | None]:
    """The fields of a target at a speed. SBI1 is that of the EOA, by the SBD; SBI2 that of the others, by the EBD."""
    each, eoa = supervisor.limits(reading, target), target.kind == "Eoa"
    v, f, w = reading.V_est, target.place, target.foot_speed
    curves = supervisor.curves
    places = [
        None if eoa else curves.d_EBD(f, w, v),
        curves.d_SBD(f, w, v) if eoa else None,
        each.guide,
        each.d_EBI,
        each.d_SBI if eoa else None,
        None if eoa else each.d_SBI,
        each.d_W,
        each.d_P,
        each.d_I,
    ]
    shown = [NAMES[target.kind], printed(target.place), target.V_target, f"{float(kmh):.10g}"]
    return shown + ["" if place is None else printed(place) for place in places]


def speeds(step: Fraction, first: Number, last: Number) -> Iterator[Fraction]:
    """Multiples of the step from one speed up to the other, both included where they are such."""
    kmh = -(-Fraction(first) // step) * step
    while kmh <= last:
        yield kmh
        kmh += step


def write(words: argparse.Namespace, out: TextIO) -> None:
    supervisor, reading, cycle, _ = at_row(read(words.input), words.row)
    M = cycle.situation.M
    last = words.to if words.to is not None else Fraction(M) + Fraction(dV_ebi(M), NOTCHES_PER_KM_H)
    csv.writer(out, lineterminator="\n").writerow(COLUMNS)
    for each in cycle.situation.targets:
        for kmh in speeds(words.step, each.target.V_target, last):
            there = at_speed(reading, kmh, words.accel, words.under)
            csv.writer(out, lineterminator="\n").writerow(row_of(supervisor, there, each.target, kmh))


def a_step(text: str) -> Fraction:
    step = Fraction(text)
    if step <= 0:
        raise argparse.ArgumentTypeError("a step is above 0")
    return step


def main(args: list[str]) -> int:
    parser = argparse.ArgumentParser(prog="tools/curves", description=__doc__.split("\n\n")[0])
    parser.add_argument("input", metavar="INPUT", help="the input of sdm run, - for standard input")
    parser.add_argument("row", metavar="N", type=int, help="which row, counted from 1")
    parser.add_argument(
        "--step",
        type=a_step,
        default=Fraction(1),
        metavar="KM_H",
        help="the step of the speed in km/h, 1 where it isn't said",
    )
    parser.add_argument(
        "--to", type=Fraction, metavar="KM_H", help="the last speed; the ceiling and its EBI margin where it isn't said"
    )
    parser.add_argument("--accel", type=int, metavar="CM_S2", help="another acceleration than that of row N")
    parser.add_argument("--under", type=int, metavar="MM_S", help="another under-reading amount than that of row N")
    try:
        write(parser.parse_args(args), sys.stdout)
    except Fault as why:
        print(f"curves: {why}", file=sys.stderr)
        return 1
    return 0
