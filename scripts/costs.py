"""Runs a command, and tells at its end what processor time each crate's proof, tests and edits took in it, in minutes:

    scripts/python -m scripts.costs rt ci

It looks twice a second at the processes below the command. What ends between two looks, and what is of no crate, as
compilers and tests that run, is the rest. The table is printed as a page has it."""
from __future__ import annotations

import os
import re
import resource
import subprocess
import sys
import threading
from collections import defaultdict
from dataclasses import dataclass
from pathlib import Path

PROC = Path("/proc")
SECONDS = 0.5  # between two looks
TICKS = os.sysconf("SC_CLK_TCK")
PARTS = ("proof", "tests", "edits")
EDITED = re.compile(r"/rt-edit-[^/]*$")  # where `rt ci` checks a crate with an edit


@dataclass(frozen=True)
class Process:
    """A process as /proc shows it: its seconds of processor time are its own and those of all that it waited for."""

    number: int
    parent: int
    seconds: float


def processes() -> dict[int, Process]:
    """All processes, by their numbers."""
    found = {}
    for folder in PROC.glob("[0-9]*"):
        try:
            fields = (folder / "stat").read_text().rpartition(")")[2].split()
        except OSError:
            continue
        number = int(folder.name)
        found[number] = Process(number, int(fields[1]), sum(map(int, fields[11:15])) / TICKS)
    return found


def job_of(number: int) -> tuple[str, str] | None:
    """The crate and the part that a process checks; none where it is no check."""
    try:
        words = (PROC / str(number) / "cmdline").read_bytes().decode(errors="replace").split("\0")
        folder = os.readlink(PROC / str(number) / "cwd")
    except OSError:
        return None
    if not words[0].endswith("/rattle") or "--crate-name" not in words:
        return None
    part = "edits" if EDITED.search(folder) else "tests" if "--test" in words else "proof"
    return words[words.index("--crate-name") + 1], part


class Watch:
    """The processor time of each check below a process, as far as it was seen."""

    def __init__(self, top: int) -> None:
        self.top = top
        self.jobs: dict[int, tuple[str, str]] = {}
        self.seconds: dict[int, float] = {}

    def look(self) -> None:
        """Adds what there is now. A check's copies of itself count with it."""
        every = processes()
        children = defaultdict(list)
        for each in every.values():
            children[each.parent].append(each.number)
        open_ = [(number, 0) for number in children[self.top]]
        now: dict[int, float] = defaultdict(float)
        while open_:
            number, check = open_.pop()
            if not check and number not in self.jobs and (job := job_of(number)):
                self.jobs[number] = job
            check = check or (number if number in self.jobs else 0)
            if check:
                now[check] += every[number].seconds
            open_ += [(child, check) for child in children[number]]
        for number, seconds in now.items():
            self.seconds[number] = max(seconds, self.seconds.get(number, 0.0))

    def minutes(self) -> dict[str, dict[str, float]]:
        """crate -> part -> its minutes, in the order in which the crates began."""
        found: dict[str, dict[str, float]] = {}
        for number, (crate, part) in self.jobs.items():
            parts = found.setdefault(crate, dict.fromkeys(PARTS, 0.0))
            parts[part] += self.seconds.get(number, 0.0) / 60
        return found


def table(found: dict[str, dict[str, float]], whole: float) -> list[str]:
    """The minutes of each crate and part as a table, dearest crate first, with the rest of the whole."""
    rows = sorted(found.items(), key=lambda each: -sum(each[1].values()))
    sums = {part: sum(parts[part] for _, parts in rows) for part in PARTS}
    lines = ["| Crate | Proof | Tests | Edits |", "|---|---:|---:|---:|"]
    lines += [f"| `{crate}` | {' | '.join(f'{parts[part]:.1f}' for part in PARTS)} |" for crate, parts in rows]
    lines += [f"| all | {' | '.join(f'{sums[part]:.1f}' for part in PARTS)} |"]
    return [*lines, "", f"the rest: {whole - sum(sums.values()):.1f} of {whole:.1f} minutes of processor time"]


def main(words: list[str]) -> int:
    """Runs the command that words are; its exit status."""
    process = subprocess.Popen(words)
    watch, ended = Watch(process.pid), threading.Event()
    looking = threading.Thread(target=looks, args=(watch, ended))
    looking.start()
    status = process.wait()
    ended.set()
    looking.join()
    spent = resource.getrusage(resource.RUSAGE_CHILDREN)
    print("\n".join(table(watch.minutes(), (spent.ru_utime + spent.ru_stime) / 60)), flush=True)
    return status


def looks(watch: Watch, ended: threading.Event) -> None:
    """Looks until the command has ended."""
    while not ended.wait(SECONDS):
        watch.look()


if __name__ == "__main__":
    sys.exit(main(sys.argv[1:]))
