"""Holds `upgrade` against `run`: over the data part of each journey of `run` in examples/ and vectors/.

    scripts/house check upgrade                   what the gate runs
    scripts/house check upgrade --program PATH    another program than crates/sdm/out/sdm

Where `run` accepts the data, `upgrade` must write a text whose table is that of the model for these data; `upgrade`
over that text must write the same bytes; and `run` over it, with the records of the journey, must end as over the
journey. Where `run` refuses the data, `upgrade` must write nothing and tell the same line. An input without a
dividing line is left out.
"""
from __future__ import annotations

import argparse
import re
import sys
from pathlib import Path

import tomllib

from scripts.product.stored import FOLDERS, journeys_in
from sdm.laboratory.program import Fault, Result, add_program, built, run
from sdm_evidence.model.data import DIVIDING_LINE, data_of, read_document, table_of

BAD_DATA = 5


def fault_of(program: Path, data: bytes, line: re.Match[bytes]) -> str | None:
    """What is wrong with `upgrade` over the data part that stands before the dividing line of an input, if anything
    is."""
    part, whole = data[: line.start()], run(program, ["run"], data)
    upgraded = run(program, ["upgrade"], part)
    if whole.code == BAD_DATA:
        return None if upgraded == Result("", whole.err, BAD_DATA) else "data that `run` refuses aren't refused alike"
    if (upgraded.err, upgraded.code) != ("", 0):
        return f"data that `run` accepts end with {upgraded.code}"
    text = upgraded.rows.encode()
    if tomllib.loads(upgraded.rows) != table_of(data_of(read_document(part))):
        return "what is written is another table"
    if run(program, ["upgrade"], text) != upgraded:
        return "what is written isn't written again"
    if run(program, ["run"], text + data[line.start() :]) != whole:
        return "what is written gives other rows"
    return None


def main(args: list[str]) -> int:
    parser = argparse.ArgumentParser(prog="scripts/house check upgrade", description=__doc__.split("\n\n")[0])
    add_program(parser)
    passed = failed = 0
    try:
        program = built(parser.parse_args(args).program)
        for case in [case for folder in FOLDERS for case in journeys_in(folder)]:
            line = DIVIDING_LINE.search(case.data)
            if case.words != ["run"] or line is None:
                continue
            fault = fault_of(program, case.data, line)
            passed, failed = passed + (fault is None), failed + (fault is not None)
            if fault:
                print(f"{case.name}: {fault}", flush=True)
    except Fault as why:
        print(f"check upgrade: {why}", file=sys.stderr)
        return 1
    print(f"upgrade: {passed} passed, {failed} failed")
    return int(failed > 0 or passed == 0)
