"""The program: which one is taken, whether it is of the sources that lie here, and what it makes of an input.

Scripts and tools take `crates/sdm/out/sdm`, and only where its mark, `sdm.sources` beside it, has the checksum of
these sources and that of the program. `scripts/house program` writes the mark when the program was built. A program
that is named by `--program` is taken as it is. Where the package is installed, the tools take the `sdm` that the path
has.
"""
import argparse
import hashlib
import os
import shutil
import subprocess
from collections.abc import Sequence
from dataclasses import dataclass
from pathlib import Path
from typing import NamedTuple

from sdm.errors import Fault as Fault

TOP = Path(__file__).resolve().parents[3]
IS_REPOSITORY = (TOP / "crates.txt").is_file()
CRATE = TOP / "crates" / "sdm"
READ_BY_THE_PROVER = ["crates/*/src", "crates/*/specs", "crates/*/proofs"]
PATIENCE = 120  # s, for one run


class Result(NamedTuple):
    """What a run wrote, what it told of its end, and its exit status."""

    rows: str
    err: str
    code: int


def sources() -> list[Path]:
    """The files that a program is made of: all that the prover reads of the crates, and what says how they hang
    together."""
    folders = [folder for pattern in READ_BY_THE_PROVER for folder in TOP.glob(pattern)]
    files = [path for folder in folders for path in folder.rglob("*") if path.is_file()]
    return sorted([TOP / "crates.txt", TOP / "HANDLES", *files])


def sum_of_sources() -> str:
    """The checksum of the sources' names and bytes."""
    total = hashlib.sha256()
    for path in sources():
        total.update(f"{path.relative_to(TOP)} {sum_of(path)}\n".encode())
    return total.hexdigest()


def sum_of(path: Path) -> str:
    """The checksum of a file's bytes."""
    return hashlib.sha256(path.read_bytes()).hexdigest()


@dataclass(frozen=True)
class Product:
    """What a proved build leaves, with a mark beside it that says of which sources it is."""

    kind: str  # as messages and the mark tell it
    path: Path

    @property
    def mark(self) -> Path:
        """The file of the mark."""
        return self.path.with_suffix(".sources")

    def marked(self) -> dict[str, str]:
        """What the mark says: `sources`, the checksum under the kind, `kit` and `by`. Nothing, where there is none."""
        if not self.mark.is_file():
            return {}
        return dict(line.split(" ", 1) for line in self.mark.read_text().splitlines() if " " in line)

    def fault(self) -> str | None:
        """Why it isn't taken, if it isn't."""
        mark = self.marked()
        if not self.path.is_file():
            return f"There is no {self.kind} at {self.path}"
        if not mark:
            return f"{self.path} has no mark of the sources that it is built from"
        if mark.get(self.kind) != sum_of(self.path):
            return f"{self.path} is another {self.kind} than the one that was marked"
        if mark.get("sources") != sum_of_sources():
            return f"{self.path} is built from other sources than these"
        return None


PROGRAM = Product("program", CRATE / "out" / "sdm")
LIBRARY = Product("library", TOP / "crates" / "sdm_c" / "out" / "libsdm_c.a")
CALLS = Product("calls-library", TOP / "crates" / "sdm_calls" / "out" / "libsdm_calls.a")
BUILT = PROGRAM.path if IS_REPOSITORY else Path(shutil.which("sdm") or "sdm")


def add_program(parser: argparse.ArgumentParser) -> None:
    """The option that all tools have for another program than the built one."""
    parser.add_argument(
        "--program",
        type=Path,
        metavar="PATH",
        help="the program to run, as it is, where it isn't "
        + ("crates/sdm/out/sdm" if IS_REPOSITORY else "the path's sdm"),
    )


def built(program: Path | None) -> Path:
    """The program to take, as a whole path: the one that was named, as it is, or the built one where it is of these
    sources."""
    if program is None and IS_REPOSITORY:
        fault = PROGRAM.fault()
    else:
        fault = None if (program or BUILT).is_file() else f"There is no program at {program or BUILT}"
    if fault:
        makers = ".ci/run or `scripts/house program build` builds it, and --program" if IS_REPOSITORY else "--program"
        raise Fault(f"{fault}: {makers} names another one.")
    path = (program or BUILT).resolve()
    if not os.access(path, os.X_OK):
        raise Fault(f"{path} is no program.")
    return path


def run(program: str | os.PathLike[str], words: Sequence[str], data: bytes) -> Result:
    """The result of the program for words and an input."""
    try:
        done = subprocess.run([program, *words], input=data, capture_output=True, timeout=PATIENCE)
    except subprocess.TimeoutExpired:
        return Result("", f"no end within {PATIENCE} s\n", -1)
    except OSError as why:
        raise Fault(f"{program} doesn't run: {why.strerror}.") from None
    return Result(done.stdout.decode(errors="replace"), done.stderr.decode(errors="replace"), done.returncode)
