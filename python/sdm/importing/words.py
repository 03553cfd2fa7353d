"""Makes a journey, which `sdm run` reads, of a recording: tools/import RECORDING --mapping FILE

The journey goes to standard output, warnings and faults to standard error. It ends with 0, or with 2 where the
recording can't be imported; then nothing is written to standard output. """
import argparse
import sys
from pathlib import Path

from sdm.importing import ImportFault, import_recording


def main(args: list[str]) -> int:
    parser = argparse.ArgumentParser(prog="tools/import", description=__doc__.split("\n\n")[0])
    parser.add_argument("recording", type=Path, metavar="RECORDING", help="another computer's recording, a CSV")
    parser.add_argument(
        "--mapping",
        type=Path,
        metavar="FILE",
        required=True,
        help="a TOML file that says which column is which quantity, and names the other files",
    )
    words = parser.parse_args(args)
    try:
        journey = import_recording(words.recording, words.mapping)
    except ImportFault as fault:
        for line in str(fault).splitlines():
            print(f"import: {line}", file=sys.stderr)
        return 2
    for warning in journey.warnings:
        print(f"import: warning: {warning}", file=sys.stderr)
    print(journey.text(), end="")
    return 0
