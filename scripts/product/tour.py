"""Runs each command of docs/TOUR.md, by bash at the top of the repository, and compares what it writes with what the
page shows below it; the commands of tools/model also with the built program in its place.

    scripts/house check tour                   with the program that was built and marked
    scripts/house check tour --program PATH    with another one
"""
from __future__ import annotations

import re
import shlex
import subprocess
from collections.abc import Iterator
from itertools import zip_longest
from pathlib import Path

from scripts.pages.part import shown, told
from scripts.product.marks import program_of
from sdm.laboratory.program import TOP

PAGE = TOP / "docs" / "TOUR.md"
STEP = re.compile(r"^```sh\n(.*?)^```\n\n^```\n(.*?)^```\n", re.M | re.S)
COMMANDS = re.compile(r"^```sh\n", re.M)
MODEL = "tools/model"


def steps(page: str) -> list[tuple[str, str]]:
    """The commands of the page, each with what it shows of what they write."""
    return [(found[1], found[2]) for found in STEP.finditer(page)]


def written(commands: str) -> str:
    """What commands write, faults too."""
    words = ["bash", "-o", "pipefail", "-c", commands]
    done = subprocess.run(words, cwd=TOP, stdout=subprocess.PIPE, stderr=subprocess.STDOUT, text=True, check=False)
    return done.stdout + (f"exit status {done.returncode}\n" if done.returncode else "")


def differences(due: str, found: str) -> Iterator[str]:
    """The first line that differs, if one does."""
    for there, line in zip_longest(due.splitlines(), found.splitlines()):
        if there != line:
            yield f"shows {shown(there, line)}, and not {shown(line, there)}"
            return


def faults_of(commands: str, due: str, program: Path) -> Iterator[str]:
    """What is wrong with what a step shows."""
    first = commands.splitlines()[0]
    for fault in differences(due, written(commands)):
        yield f"docs/TOUR.md: {first}: {fault}"
    if MODEL in commands:
        for fault in differences(due, written(commands.replace(MODEL, shlex.quote(str(program))))):
            yield f"docs/TOUR.md: {first}: with the program: {fault}"


def main(words: list[str]) -> int:
    program = program_of("tour", words)
    page = PAGE.read_text()
    found = steps(page)
    faults = [fault for commands, due in found for fault in faults_of(commands, due, program)]
    if len(found) != len(COMMANDS.findall(page)):
        faults.append("docs/TOUR.md: commands without what they write below them")
    return told("tour", len(found), faults)
