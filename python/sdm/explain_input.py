"""Why `sdm run` refuses an input, fault by fault, and what looks wrong in one that it accepts: tools/explain INPUT"""

import argparse
import sys

from sdm.findings import Explanation, explanation
from sdm.laboratory.program import Fault
from sdm.laboratory.walk import read


def lines_of(explained: Explanation) -> list[str]:
    """What is printed: what the program says, or that it accepts the input, and a line for each finding."""
    first = f"accepted: {explained.records} records, of them {explained.readings} readings"
    if explained.fault:
        first = f"sdm: {explained.fault}"
    return [first, *map(str, explained.findings)]


def main(args: list[str]) -> int:
    parser = argparse.ArgumentParser(prog="tools/explain", description=__doc__.split(": tools")[0])
    parser.add_argument("input", metavar="INPUT", help="the input of sdm run, - for standard input")
    words = parser.parse_args(args)
    try:
        explained = explanation(read(words.input))
    except Fault as why:
        print(f"explain: {why}", file=sys.stderr)
        return 2
    print("\n".join(lines_of(explained)))
    return 1 if explained.fault else 0
