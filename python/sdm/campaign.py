"""Runs the program over all journeys of a folder, on all processors or on several hosts: tools/campaign FOLDER

A journey is a folder with `input`, as in examples/ and vectors/, at any depth. What the program makes of it is written
beside it: got.rows, got.err, got.time and, last, got.code. Started again, it runs those alone that have no got.code
yet. At the end it tells how the journeys ended, and where they differ from the `rows`, `err` and `code` that lie beside
their inputs. It ends with 0 where all ran and nothing differs, with 1 where something does, with 2 where it can't run.
With --statistics it tells how often each command and status came, the least margins and the slowest journeys; --csv
writes a line for each journey. Other hosts work by --dask or --mpi; they see FOLDER and the program under the same
paths.
"""
from __future__ import annotations

import argparse
import collections
import os
import subprocess
import sys
import time
from collections.abc import Iterable, Iterator
from contextlib import closing, contextmanager
from functools import partial
from importlib import import_module
from pathlib import Path
from typing import Any

from sdm.engine import ProgressLine, outcomes
from sdm.laboratory.cases import Case, case_of, difference, text_of
from sdm.laboratory.program import Fault, Result, add_program, built
from sdm.laboratory.statistics import Figures, Statistics, figures_of, microseconds_of, statistics_of

OUTCOMES = dict(
    enumerate(
        [
            "done",
            "bad words",
            "read fault",
            "write fault",
            "input too long",
            "bad data",
            "refused",
            "bad event",
            "no memory",
            "not drivable",
        ]
    )
)  # by the code


def journeys_in(folder: Path) -> list[Path]:
    """The folders of all journeys."""
    found = sorted(path.parent for path in folder.resolve().rglob("input"))
    if not found:
        raise Fault(f"{folder} has no journey in it: a journey is a folder with a file `input`.")
    return found


def journeys(words: argparse.Namespace) -> list[Path]:
    """The folders of all journeys, or of a part of them."""
    return journeys_in(words.folder)[words.part[0] - 1 :: words.part[1]]


def code_of(folder: Path) -> str:
    """The code with which a journey ended; nothing where it wasn't run yet, or was cut."""
    return text_of(folder / "got.code", "").strip()


def judge(program: Path, folder: Path) -> str:
    """Runs a journey, and writes what comes beside its input: why it can't be run, or nothing."""
    try:
        words = text_of(folder / "args", "run\n").splitlines()
        begun = time.perf_counter_ns()
        with (
            (folder / "input").open("rb") as given,
            (folder / "got.rows").open("wb") as rows,
            (folder / "got.err").open("wb") as err,
        ):
            code = subprocess.run([program, *words], stdin=given, stdout=rows, stderr=err).returncode
        (folder / "got.time").write_text(f"{(time.perf_counter_ns() - begun) // 1000}\n")
        (folder / "got.code").write_text(f"{code if code >= 0 else 128 - code}\n")  # as a shell tells it
    except OSError as why:
        return f"{folder}: {why}"
    return ""


def run(
    program: Path, folders: Iterable[Path], *, executor: Any = None, processes: int | None = None, progress: bool = True
) -> int:
    """Runs journeys by an executor, or by so many processes: how many were run. Raises Fault where one can't be."""
    held = list(folders)
    told = ProgressLine("journeys", len(held), progress)
    try:
        with closing(outcomes(partial(judge, program), held, executor=executor, processes=processes)) as made:
            for folder, fault, why in made:
                if fault or why is not None:
                    raise Fault(f"{folder} can't be run: {fault or why}")
                told.count()
    finally:
        told.end()
    return told.done


@contextmanager
def executor_of(words: argparse.Namespace) -> Iterator[Any]:
    """What runs a campaign: Dask's or MPI's executor; nothing, where processes of this host do."""
    try:
        if words.dask:
            with import_module("distributed").Client(words.dask) as client:
                yield client
        elif words.mpi:
            with import_module("mpi4py.futures").MPIPoolExecutor() as executor:
                yield executor
        else:
            yield None
    except ImportError as why:
        raise Fault(f"{why}: Debian has it as python3-distributed or python3-mpi4py.") from None
    except OSError as why:
        raise Fault(f"The scheduler at {words.dask} can't be reached: {why}.") from None


def got(folder: Path) -> Result | None:
    """What the program made of a journey; None where it wasn't run."""
    code = code_of(folder)
    return Result(text_of(folder / "got.rows", ""), text_of(folder / "got.err", ""), int(code)) if code else None


def differences(case: Case, made: Result) -> list[str]:
    """Where what the program made of a journey differs from what is due, in lines."""
    return difference(("due", "made"), case.due, made, case.words) if case.due else []


def statistics(folder: str | os.PathLike[str]) -> Statistics:
    """What a campaign's journeys have in numbers. Raises Fault where there is no journey, or one can't be read."""
    top = Path(folder).resolve()
    return counted(journeys_in(top), top, False)


def counted(folders: list[Path], top: Path, progress: bool, processes: int | None = None) -> Statistics:
    """Some journeys in numbers, counted by processes of this host."""
    told, found = ProgressLine("journeys counted", len(folders), progress), dict[Path, Figures]()
    try:
        with closing(outcomes(partial(figures_or_fault, top), folders, processes=processes)) as made:
            for folder, figures, why in made:
                if not isinstance(figures, Figures):
                    raise Fault(str(figures or why))
                found[folder] = figures
                told.count()
    finally:
        told.end()
    return statistics_of(found[folder] for folder in folders)


def figures_or_fault(top: Path, folder: Path) -> Figures | str:
    """A journey in numbers, or why it can't be read."""
    try:
        return figures_in(folder, top)
    except Fault as why:
        return str(why)


def figures_in(folder: Path, top: Path) -> Figures:
    """A journey in numbers."""
    case, made = case_of(folder, str(folder.relative_to(top))), got(folder)
    verdict = "not run" if made is None else "nothing due" if case.due is None else "as due"
    if made is not None and differences(case, made):
        verdict = "differs"
    return figures_of(case, verdict, made, microseconds_of(folder))


def tell_statistics(words: argparse.Namespace, folders: list[Path]) -> None:
    """Prints the statistics, or writes them, as the words ask for."""
    found = counted(folders, words.folder.resolve(), True, words.jobs)
    if words.statistics:
        print("\n".join(["", *found.lines()]))
    if words.csv:
        try:
            with words.csv.open("w", encoding="utf-8", newline="") as out:
                found.write(out)
        except OSError as why:
            raise Fault(f"{words.csv} can't be written: {why.strerror}.") from None


def summary(words: argparse.Namespace, folders: list[Path]) -> bool:
    """Tells how the journeys ended and which differ from what lies beside them; whether all is well."""
    ends: collections.Counter[int] = collections.Counter()
    same = differ = left = 0
    told = ProgressLine("journeys compared", len(folders))
    for folder in folders:
        told.count()
        made = got(folder)
        if made is None:
            left += 1
            continue
        case = case_of(folder, str(folder.relative_to(words.folder.resolve())))
        ends[made.code] += 1
        lines = differences(case, made)
        same, differ = same + bool(case.due and not lines), differ + bool(lines)
        if lines and differ <= words.most:
            print("\n".join([f"{case.name} differs", *lines]))
    told.end()
    print(f"{'end':6}{'journeys':>9}  outcome")
    for code in sorted(ends):
        print(f"{code:<6}{ends[code]:>9}  {OUTCOMES.get(code, 'no end of sdm')}")
    unknown = sum(count for code, count in ends.items() if code not in OUTCOMES)
    print(f"{same} as due, {differ} differ, {sum(ends.values()) - same - differ} with nothing due, {left} not run")
    return not (differ or left or unknown)


def a_part(text: str) -> list[int]:
    part = [int(number) for number in text.split("/")]
    if len(part) != 2 or not 1 <= part[0] <= part[1]:
        raise argparse.ArgumentTypeError("a part is K/N, with K from 1 to N")
    return part


def words_of(args: list[str]) -> argparse.Namespace:
    parser = argparse.ArgumentParser(prog="tools/campaign", description=__doc__.split("\n\n")[0])
    parser.add_argument("folder", metavar="FOLDER", type=Path, help="the folder of the journeys")
    parser.add_argument("--again", action="store_true", help="run those that were run, too")
    parser.add_argument(
        "--jobs", metavar="N", type=int, help="how many processes run; one for each processor where it isn't said"
    )
    parser.add_argument("--dask", metavar="ADDRESS", help="runs on the workers of Dask's scheduler at ADDRESS")
    parser.add_argument(
        "--mpi",
        action="store_true",
        help="runs on MPI: mpiexec -n N python3 -m mpi4py.futures -m sdm campaign .. --mpi",
    )
    parser.add_argument(
        "--part",
        metavar="K/N",
        type=a_part,
        default=[1, 1],
        help="the K-th of N parts of the journeys, for a batch engine",
    )
    parser.add_argument(
        "--most", metavar="N", type=int, default=20, help="how many differences are shown, 20 where it isn't said"
    )
    parser.add_argument(
        "--statistics", action="store_true", help="tells how often each command came, the least margins, the slowest"
    )
    parser.add_argument("--csv", metavar="FILE", type=Path, help="writes a line for each journey there, as CSV")
    add_program(parser)
    return parser.parse_args(args)


def main(args: list[str]) -> int:
    words = words_of(args)
    try:
        folders = journeys(words)
        left = [folder for folder in folders if words.again or not code_of(folder)]
        if words.again:
            for folder in left:
                (folder / "got.code").unlink(missing_ok=True)
        print(f"{len(folders)} journeys, {len(left)} to run")
        if left:
            begun = time.monotonic()
            with executor_of(words) as executor:
                done = run(built(words.program), left, executor=executor, processes=words.jobs)
            print(f"{done} journeys were run in {time.monotonic() - begun:.1f} s")
        well = summary(words, folders)
        if words.statistics or words.csv:
            tell_statistics(words, folders)
    except Fault as why:
        print(f"campaign: {why}", file=sys.stderr)
        return 2
    return int(not well)
