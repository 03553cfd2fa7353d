"""Runs the prover over a copy of a crate with the edits of a batch.

A check asks for the functions that are to refuse the edits, and for no others: a hole stands in place of the proof of
each other function. It runs over the libraries of the crates below that lie in their `out/`, by the command with which
`rt check` ends: `rt check` itself would prove these once more where `rt ci` left them. What a check proved serves the
next one of the crate."""
from __future__ import annotations

import os
import re
import resource
import shutil
import signal
import subprocess
import tempfile
import time
from dataclasses import dataclass
from functools import cache
from pathlib import Path
from typing import TextIO

from scripts.editing.batches import Trial
from scripts.editing.edits import Unfit
from scripts.editing.functions import Function, functions, functions_in
from scripts.editing.heard import Heard, heard
from scripts.editing.planting import Plant, change, leave_out_proofs, plant, proof_of, whole
from scripts.pages.specs import CRATES, ROOT, crates_with_libraries

PARTS = ("src", "specs", "proofs")
KEPT = Path("out") / "incremental"
MOST_SECONDS = 1800  # that a check may take
LONG = 10  # seconds from which on an edit is told to take long
ENDED = re.compile(r"checked (\S+), \d+ of \d+$")
LACKING = re.compile(r"^rattle: error: `\w+` has no function `([^`]+)`", re.M)
LINE = re.compile(r"\b(src/[\w/]+\.rt):(\d+):\d+")


@cache
def kit() -> Path:
    """The toolchain's folder."""
    told = subprocess.run(["rt", "doc"], check=True, capture_output=True, text=True).stdout
    return Path(told.strip()).parent


@cache
def libraries() -> dict[str, list[str]]:
    """crate -> what it stands on, by crates.txt."""
    return dict(crates_with_libraries())


@cache
def reached(crate: str) -> set[str]:
    """The crates below a crate."""
    direct = [name for name in libraries()[crate] if name in libraries()]
    return {*direct, *(name for each in direct for name in reached(each))}


def is_static(crate: str) -> bool:
    """Whether crates.txt makes a static library of a crate."""
    heads = [line.partition(":")[0].split() for line in (ROOT / "crates.txt").read_text().splitlines()]
    return any(head[:1] == [crate] and "staticlib" in head for head in heads)


def library(crate: str) -> Path:
    """The library that a crate's proof leaves."""
    return CRATES / crate / "out" / "rlib" / f"{crate}.rlib"


def words(crate: str, sources: dict[str, Path], used: list[str] | None = None) -> list[str]:
    """The words of a check of a crate in its folder, where some crates below come as sources, by their folders, and not
    as libraries; of the libraries of crates.txt it may have only those that are used."""
    own = libraries()[crate] if used is None else used
    handed = [*own, *(name for each in sources for name in libraries()[each])]
    found = [str(kit() / "bin" / "rattle"), "check", "--crate-name", crate]
    found += ["src/main.rt" if (CRATES / crate / "src" / "main.rt").exists() else "src/lib.rt"]
    for name in dict.fromkeys(["std", *(["core"] if sources else []), *handed]):
        if name not in sources:
            place = library(name) if name in libraries() else kit() / "rlibs" / f"{name}.rlib"
            found += ["--extern", f"{name}={place}"]
    for name, folder in sources.items():
        found += ["--lib", f"{name}:{','.join(['core', 'std', *libraries()[name]])}={folder}/src/lib.rt"]
    found += ["-L", f"dependency={kit() / 'rlibs'}"]
    for name in sorted(reached(crate) - {*sources}):
        found += ["-L", f"dependency={library(name).parent}"]
    found += ["--antt-project", str(kit() / "rattle" / "logic" / "antt-project.json")]
    found += ["--logic-built", str(kit() / "logic_built"), "--jobs", "1", "--links", f"{crate}="]
    return found + (["--crate-type", "staticlib"] if is_static(crate) else [])


@dataclass(frozen=True)
class Place:
    """The function that is to refuse an edit, and the copy of it as it is, by their paths below the crate."""

    path: str
    control: str = ""  # none where there is no such copy


@dataclass(frozen=True)
class Answer:
    """What came of a check, with its time, the processor's time, and the most memory that it held in KiB."""

    heard: Heard
    places: dict[Trial, Place]  # an edit that can't be applied beside others has none
    functions: list[Function]  # of the copy of the crate
    seconds: float
    processor: float
    memory: int
    longest: list[tuple[float, str]]  # the seconds of the edits that took longest, with their names

    def culprits(self) -> list[Trial]:
        """The edits that the front end can't take, by the places or the functions that it names."""
        named = [(file, int(line)) for file, line in LINE.findall("\n".join(self.heard.front()))]
        hit = {each.path for each in self.functions for file, line in named if each.file == file and line in each.lines}
        hit |= set(LACKING.findall(self.heard.said))
        return [trial for trial, place in self.places.items() if place.path in hit]


class Prover:
    """Checks of one crate, each over what those before it proved."""

    def __init__(self, crate: str, scratch: Path, told: Path | None) -> None:
        self.crate, self.scratch = crate, scratch
        self.told, self.checks = told, 0
        self.kept = scratch / "kept"
        old = CRATES / crate / KEPT
        if old.is_dir():
            shutil.copytree(old, self.kept, copy_function=linked)

    def check(self, trials: list[Trial]) -> Answer:
        """Checks the crate with these edits, as far as the functions go that are to refuse them."""
        with tempfile.TemporaryDirectory(dir=self.scratch) as room:
            folder = copied(self.crate, Path(room))
            sources: dict[str, Path] = {}
            for lower in sorted({each.edit.crate for each in trials} - {self.crate}):
                between = [name for name in reached(self.crate) if lower == name or lower in reached(name)]
                sources |= {name: copied(name, Path(room)) for name in between}
            places = planted(trials, Path(room))
            asked = dict.fromkeys(path for place in places.values() for path in (place.path, place.control) if path)
            for name, place in {self.crate: folder, **sources}.items():
                leave_out_proofs(place, name, {*asked} if name == self.crate else set())
            command = [*words(self.crate, sources), "--incremental", str(self.kept), "--allow-holes"]
            return self.run([*command, *(word for path in asked for word in ("--only", path))], folder, places)

    def run(self, command: list[str], folder: Path, places: dict[Trial, Place]) -> Answer:
        """Runs a check to its end."""
        begun, inside, written = time.monotonic(), functions_in(folder), self.scratch / "written"
        with written.open("w") as out, written.open(errors="replace") as back:
            process = subprocess.Popen(
                [*command, "--progress"],
                cwd=folder,
                stdin=subprocess.DEVNULL,
                stdout=out,
                stderr=out,
                start_new_session=True,
            )
            ends = Ends(back)
            usage = waited(process, begun + MOST_SECONDS, ends)
        said = written.read_text(errors="replace")
        if self.told:
            self.told.mkdir(parents=True, exist_ok=True)
            (self.told / f"{self.crate}-{self.checks}").write_text(said)
        self.checks += 1
        told = heard(self.crate, inside, said, folder)
        processor = usage.ru_utime + usage.ru_stime
        return Answer(
            told, places, inside, time.monotonic() - begun, processor, usage.ru_maxrss, ends.longest(self.crate, places)
        )


class Ends:
    """When the prover ended with each function, by what it writes meanwhile."""

    def __init__(self, written: TextIO) -> None:
        self.written, self.last, self.seconds = written, time.monotonic(), dict[str, float]()

    def look(self) -> None:
        """Reads what came since the last look."""
        now = time.monotonic()
        found = [each[1] for line in self.written if (each := ENDED.match(line))]
        if found:
            self.seconds |= dict.fromkeys(found, (now - self.last) / len(found))
            self.last = now

    def longest(self, crate: str, places: dict[Trial, Place]) -> list[tuple[float, str]]:
        """The edits that took longest, each with its seconds."""
        edits = {f"{crate}::{place.path}": trial.edit.name for trial, place in places.items()}
        found = sorted(
            ((seconds, edits[name]) for name, seconds in self.seconds.items() if name in edits), reverse=True
        )
        return [each for each in found if each[0] >= LONG][:3]


def planted(trials: list[Trial], room: Path) -> dict[Trial, Place]:
    """Applies edits to copies of crates; where each is to be refused, but those that can't be applied beside others."""
    places: dict[Trial, Place] = {}
    plants: dict[str, Plant] = {}
    for number, each in enumerate(trials):
        name = each.function.name
        if each.is_planted and stands_alone(each, trials):
            change(room / each.crate, each.function, each.edit)
            places[each] = Place(each.function.path)
            continue
        if each.is_planted:
            copy = Plant(each.function, f"{name}_edit{number}", each.edit)
            control = Plant(each.function, f"{name}_as_it_is")
            has_proof = proof_of(room / each.crate, each.function.path).is_dir()
            plants |= {copy.path: copy} | ({control.path: control} if has_proof else {})
            places[each] = Place(copy.path, control.path if has_proof else "")
            continue
        try:
            each.edit.apply(room / each.edit.crate, "" if each.edit.is_for_rt() else whole(each.function))
        except Unfit:
            continue
        places[each] = Place(each.function.path)
    if plants:
        plant(room / trials[0].crate, list(plants.values()))
    return places


def stands_alone(trial: Trial, trials: list[Trial]) -> bool:
    """Whether no other trial is of the function of this one, or of one that calls it."""
    others = [each for each in trials if each is not trial]
    own = functions(trial.crate).index(trial.function)
    return not any(each.function == trial.function or own in each.stands_on for each in others)


def waited(process: subprocess.Popen[bytes], until: float, ends: Ends) -> resource.struct_rusage:
    """What a check took that has ended; one that lasts too long is ended."""
    while True:
        ends.look()
        pid, status, found = os.wait4(process.pid, os.WNOHANG)
        usage: resource.struct_rusage = found
        if pid:
            process.returncode = os.waitstatus_to_exitcode(status)
            return usage
        if time.monotonic() > until:
            os.killpg(process.pid, signal.SIGKILL)
            until = float("inf")
        time.sleep(0.05)


def linked(one: str, other: str) -> str:
    """Gives a file that was proved another name, and copies any other: a check replaces the former and changes none."""
    if one.endswith(".oantt"):
        try:
            os.link(one, other)
            return other
        except OSError:
            pass
    return str(shutil.copy2(one, other))


def copied(crate: str, room: Path) -> Path:
    """A copy of a crate's sources."""
    for part in PARTS:
        if (CRATES / crate / part).is_dir():
            shutil.copytree(CRATES / crate / part, room / crate / part)
    return room / crate
