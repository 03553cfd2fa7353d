"""Fails where an edit isn't refused by the goal that its file names: scripts/editing says what an edit is, and which
refusals count.

    scripts/house check edits [CRATE..]        tries the edits that these crates are to refuse, or all
    scripts/house check edits --only EDIT..    tries these, each as CRATE/NAME
    scripts/house check edits --mark EDIT..    tries these, and writes into each file what refuses it
    scripts/house check edits --clauses        lists the clauses of public calls that no edit's file names

    --jobs N         so many crates at a time; without it, by processors and memory
    --told FOLDER    puts what the prover says of each check into a file there

Where `rt ci` has just left the libraries of the crates (PROVED_BY_RT_CI), it takes these; else those of `rt lib`. A
line tells each check with its time, the last one how many edits passed."""
from __future__ import annotations

import argparse
import os
import re
import subprocess
import sys
import tempfile
from concurrent.futures import ThreadPoolExecutor
from pathlib import Path

from scripts.editing.batches import Trial, batches, trial_of, unmarked_trial_of
from scripts.editing.clauses import public_clauses, without_edit
from scripts.editing.edits import Edit, Unfit, all_edits
from scripts.editing.provers import Prover, reached
from scripts.editing.verdicts import Verdict, best, judged
from scripts.pages.specs import CRATES, crates

MOST_MEMORY = 3 << 20  # KiB that a check holds


class Crate:
    """The trials of the edits that one crate is to refuse."""

    def __init__(self, name: str, trials: list[Trial], told: Path | None) -> None:
        self.name, self.trials, self.told = name, trials, told
        self.verdicts: list[Verdict] = []
        self.processor = 0.0

    def run(self) -> "Crate":
        """Tries all edits: in batches, and alone those that weren't seen there."""
        with tempfile.TemporaryDirectory(prefix=f"edits-{self.name}-") as scratch:
            prover = Prover(self.name, Path(scratch), self.told)
            unseen = [trial for batch in batches(self.trials) for trial in self.tried(prover, batch)]
            for trial in unseen:
                self.tried(prover, [trial])
        return self

    def tried(self, prover: Prover, batch: list[Trial]) -> list[Trial]:
        """Tries a batch, and returns the edits of it that weren't seen. Where one doesn't compile, the others are tried
        once more without it."""
        answer = prover.check(batch)
        culprits = answer.culprits()
        unseen, failed = [], []
        for trial in batch:
            place = answer.places.get(trial)
            is_alone = len(batch) == 1 or trial in culprits
            verdict = judged(trial, place, answer.heard, is_alone) if place else None
            if not verdict:
                unseen.append(trial)
                continue
            self.verdicts.append(verdict)
            if not verdict.passed:
                failed.append(f"{trial.edit.name}: FAILED: {verdict.why}")
            elif place and trial.is_marked_anew:
                trial.edit.mark(best(trial, place, answer.heard))
        self.processor += answer.processor
        passed = f"{len(batch) - len(unseen) - len(failed)} passed, {len(failed)} failed"
        again = f", {len(unseen)} to be tried again" if unseen else ""
        cost = f"{answer.seconds:.0f} s, {answer.processor:.0f} of the processor, {answer.memory >> 10} MiB"
        longest = [f"{name}: {seconds:.0f} s of it" for seconds, name in answer.longest]
        print("\n".join([f"{self.name}: of {len(batch)}: {passed}{again}; {cost}", *longest, *failed]), flush=True)
        return self.tried(prover, unseen) if culprits and unseen else unseen


def sorted_out(edits: list[Edit], is_marking: bool, told: Path | None) -> tuple[list[Crate], list[Verdict]]:
    """The edits by the crates that are to refuse them, highest first, and those that can't be tried."""
    found: dict[str, list[Trial]] = {name: [] for name in reversed(crates())}
    unfit = []
    for edit in edits:
        try:
            trial = unmarked_trial_of(edit) if is_marking else trial_of(edit)
            found[trial.crate].append(trial)
        except Unfit as why:
            unfit.append(Verdict(edit, False, str(why)))
            print(f"{edit.name}: FAILED: {why}", flush=True)
    return [Crate(name, trials, told) for name, trials in found.items() if trials], unfit


def build_libraries(tried: list[Crate]) -> None:
    """Brings the libraries of the crates below up to date, where `rt ci` didn't just leave them."""
    if os.environ.get("PROVED_BY_RT_CI"):
        return
    below = {name for crate in tried for name in reached(crate.name)}
    for name in (name for name in crates() if name in below):
        print(f"{name}: its library", flush=True)
        done = subprocess.run(["rt", "lib", "--jobs", "1"], cwd=CRATES / name, capture_output=True, text=True)
        if done.returncode:
            sys.exit(f"{done.stdout}{done.stderr}edits: {name} isn't proved, so no crate above it is tried")


def lanes() -> int:
    """How many checks run at a time, by processors and memory."""
    found = re.search(r"^MemAvailable:\s+(\d+)", Path("/proc/meminfo").read_text(), re.M)
    most = int(found[1]) // MOST_MEMORY if found else 1
    return max(1, min(most, len(os.sched_getaffinity(0))))


def chosen(words: argparse.Namespace) -> list[Edit]:
    """The edits that the words name."""
    every = {edit.name: edit for edit in all_edits()}
    named = words.only or words.mark
    unknown = [name for name in named if name not in every] + [name for name in words.crates if name not in crates()]
    if unknown:
        sys.exit(f"edits: there is no {', '.join(unknown)}")
    if named:
        return [every[name] for name in named]
    tried = [each for each in every.values() if not each.is_for_rt_alone()]
    return [each for each in tried if not words.crates or belongs(each, words.crates)]


def belongs(edit: Edit, names: list[str]) -> bool:
    """Whether one of some crates is to refuse an edit; one without a mark counts with its own crate."""
    return (edit.marked() or edit.crate).partition("::")[0] in names


def main(arguments: list[str]) -> int:
    parser = argparse.ArgumentParser(
        prog="scripts/house check edits", description=__doc__, formatter_class=argparse.RawDescriptionHelpFormatter
    )
    parser.add_argument("crates", nargs="*", metavar="CRATE")
    parser.add_argument("--only", nargs="+", metavar="EDIT", default=[])
    parser.add_argument("--mark", nargs="+", metavar="EDIT", default=[])
    parser.add_argument("--clauses", action="store_true")
    parser.add_argument("--jobs", type=int, default=lanes(), metavar="N")
    parser.add_argument("--told", type=Path, metavar="FOLDER")
    words = parser.parse_args(arguments)
    if words.clauses:
        every, without = public_clauses(), without_edit()
        print("\n".join(map(str, without)))
        print(f"clauses: {len(every)} of public calls, {len(without)} that no edit names")
        return 0
    edits = chosen(words)
    tried, verdicts = sorted_out(edits, bool(words.mark), words.told)
    build_libraries(tried)
    with ThreadPoolExecutor(max(1, words.jobs)) as threads:
        for crate in threads.map(Crate.run, tried):
            verdicts += crate.verdicts
    return told(len(edits), tried, verdicts)


def told(count: int, tried: list[Crate], verdicts: list[Verdict]) -> int:
    """Tells what the crates cost and how many of so many edits passed; the exit status."""
    for crate in sorted(tried, key=lambda each: -each.processor):
        print(f"{crate.name}: {len(crate.trials)} edits, {crate.processor / 60:.1f} minutes of processor time")
    passed = sum(each.passed for each in verdicts)
    print(f"edits: {sum(each.processor for each in tried) / 60:.1f} minutes of processor time")
    print(f"edits: {passed} passed, {count - passed} failed")
    return int(passed < count or not count)
