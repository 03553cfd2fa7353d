"""Measures the built program over the standard inputs and prints a table in Markdown. It asserts nothing: an input that
the program refuses, or a command that it doesn't know, is a note in the table. bench/README.md says what each column
is."""
from __future__ import annotations

import argparse
import hashlib
import shutil
import sys
import tempfile
from pathlib import Path

import inputs
import measure
from sdm.laboratory.piped import end
from sdm.laboratory.program import Fault, add_program, built, sum_of

COUNTS = ["Input", "Records", "Counted"]
TIMES = ["ns each"]
BESIDE = ["Reference, ns each", "Of the reference"]
REST = ["Instructions each", "Peak memory, MiB", "Start-up, ms", "Start-up, instructions"]

BUSY = 1.5  # a load above this means that others ran beside the programs


def options() -> argparse.Namespace:
    """What the command line asks for."""
    parser = argparse.ArgumentParser(description="Measures the built program over the standard inputs.")
    add_program(parser)
    parser.add_argument(
        "--only",
        nargs="+",
        choices=list(inputs.MAKERS),
        metavar="INPUT",
        default=list(inputs.MAKERS),
        help="measure these inputs alone: " + ", ".join(inputs.MAKERS),
    )
    parser.add_argument(
        "--reference", type=Path, help="another program, run in turn with it: as a rule that of the last release"
    )
    parser.add_argument("--seed", type=int, default=1, help="what the inputs are made from; else 1")
    parser.add_argument("--runs", type=int, default=20, help="how often each input is timed; else 20 times")
    parser.add_argument(
        "--folder",
        type=Path,
        help="where inputs and profiles are kept; else they go to a scratch folder that is removed",
    )
    return parser.parse_args()


def stored(made: inputs.Input, folder: Path) -> tuple[Path, Path]:
    """Writes an input, and the same with its first line alone; their paths."""
    whole, one = folder / f"{made.name}.input", folder / f"{made.name}-one.input"
    whole.write_bytes(made.whole())
    one.write_bytes(made.one())
    return whole, one


class Least:
    """The least that a program took over an input, and over the same with one reading, of several runs."""

    def __init__(self, program: Path, made: inputs.Input) -> None:
        self.program, self.made = program, made
        self.whole = self.one = float("inf")

    def run(self, whole: Path, one: Path) -> None:
        """Runs the program over both once more."""
        self.whole = min(self.whole, measure.spent(self.program, self.made.words, whole))
        self.one = min(self.one, measure.spent(self.program, self.made.words_of_one, one))

    def ns_each(self) -> float:
        """What one reading costs, or one record where none is a reading: what the whole takes above the input with one,
        by those but that one, so that neither the start of the process nor the opening is in it."""
        return 1e9 * (self.whole - self.one) / (self.made.counted - 1)


def figures(made: inputs.Input, whole: Path, one: Path, chosen: argparse.Namespace, folder: Path) -> list[str]:
    """The cells of an input's row after its counts."""
    program = chosen.program
    timed = [Least(each, made) for each in (program, chosen.reference) if each]
    for _ in range(chosen.runs):
        for each in timed:
            each.run(whole, one)
    cells = [f"{each.ns_each():,.0f}" for each in timed]
    if chosen.reference:
        cells.append(f"{timed[0].ns_each() / timed[1].ns_each():.2f}")
    count = measure.instructions(program, made.words, whole, whole.with_suffix(".callgrind"))
    count_of_one = measure.instructions(program, made.words_of_one, one, one.with_suffix(".callgrind"))
    return cells + [
        f"{(count - count_of_one) / (made.counted - 1):,.0f}",
        f"{measure.peak_kib(program, made.words, whole, folder) / 1024:.1f}",
        f"{1e3 * timed[0].one:.1f}",
        f"{count_of_one:,}",
    ]


def columns(chosen: argparse.Namespace) -> list[str]:
    """The heads of the table's columns."""
    return COUNTS + TIMES + (BESIDE if chosen.reference else []) + REST


def row(made: inputs.Input, chosen: argparse.Namespace, folder: Path, digest: hashlib._Hash) -> str:
    """The row of an input. One that the program doesn't take to its end has a note in place of figures."""
    whole, one = stored(made, folder)
    digest.update(whole.read_bytes())
    records = made.head.partition("%%\n")[2].count("\n") + len(made.lines)
    counts = [made.name, f"{records:,}" if made.lines else "none", f"{made.counted:,}"]
    status, fault = measure.ending(chosen.program, made.words, whole)
    if status == 0:
        cells = figures(made, whole, one, chosen, folder)
    else:
        cells = [f"not measured: ended with {status}, `{fault}`"] + ["-"] * (len(columns(chosen)) - len(counts) - 1)
    return "| " + " | ".join(counts + cells) + " |"


def measured(chosen: argparse.Namespace, folder: Path) -> None:
    """Measures the chosen inputs and prints the table, each row as it comes, and what must be known beside it."""
    before, digest = measure.load(), hashlib.sha256()
    print("| " + " | ".join(columns(chosen)) + " |")
    print("|---|" + "---:|" * (len(columns(chosen)) - 1), flush=True)
    for name in chosen.only:
        print(row(inputs.MAKERS[name](chosen.seed), chosen, folder, digest), flush=True)
    after = measure.load()
    busy = (
        "; it was busy, so compare the times of one line alone, and the instructions"
        if max(before, after) > BUSY
        else ""
    )
    print(f"\n- Machine: {measure.machine()}; load {before:.1f} before and {after:.1f} after{busy}")
    beside = f", reference {sum_of(chosen.reference)[:12]}" if chosen.reference else ""
    toolchain = measure.said(["rt", "version"])
    print(f"- Commit {measure.commit()}; {toolchain}; program {sum_of(chosen.program)[:12]}{beside}")
    print(
        f"- Inputs {', '.join(chosen.only)} of seed {chosen.seed}: {digest.hexdigest()[:12]}; {chosen.runs} runs each"
    )


def main() -> None:
    chosen = options()
    try:
        chosen.program = built(chosen.program)
    except Fault as why:
        sys.exit(f"bench/run: {why}")
    missing = measure.tools_missing()
    if missing:
        sys.exit(f"bench/run: {', '.join(missing)} is missing; `scripts/setup tools` installs it")
    if chosen.folder:
        chosen.folder.mkdir(parents=True, exist_ok=True)
        measured(chosen, chosen.folder.resolve())
        return
    scratch = Path(tempfile.mkdtemp())
    try:
        measured(chosen, scratch)
    finally:
        shutil.rmtree(scratch)


if __name__ == "__main__":
    end(main)
