"""That an early bound handed where a late one is asked doesn't compile, and the reverse: each snippet of
scripts/refused is checked as a crate of its own over sdm_num, in a scratch repository. It must be refused by an error
that names both types, and its control, the same snippet with the right type, must pass.
"""
from __future__ import annotations

import os
import re
import shutil
import subprocess
import tempfile
from collections.abc import Iterator
from pathlib import Path

from scripts.pages.part import told
from sdm.laboratory.program import TOP, Fault

SNIPPETS = TOP / "scripts" / "refused"
LIBRARY = TOP / "crates" / "sdm_num" / "out" / "rlib" / "sdm_num.rlib"
OTHERS = {"Early": "Late", "Late": "Early"}


def over_proved(name: str) -> list[str]:
    """The command with which `rt check` ends, over the library that `rt ci` left: `rt check` itself would prove sdm_num
    once more."""
    told_by = subprocess.run(["rt", "doc"], capture_output=True, text=True, check=True).stdout
    kit = Path(told_by.strip()).parent
    words = [str(kit / "bin" / "rattle"), "check", "--crate-name", name, "src/lib.rt"]
    words += ["--extern", f"std={kit / 'rlibs' / 'std.rlib'}", "-L", f"dependency={kit / 'rlibs'}"]
    words += ["--extern", f"sdm_num={LIBRARY}", "-L", f"dependency={LIBRARY.parent}", "--links", f"{name}="]
    words += ["--antt-project", str(kit / "rattle" / "logic" / "antt-project.json")]
    return [*words, "--logic-built", str(kit / "logic_built"), "--jobs", "1"]


def ended(words: list[str], folder: Path) -> tuple[int, str]:
    """The exit status of a command in a folder, and what it told."""
    done = subprocess.run(
        words, cwd=folder, stdin=subprocess.DEVNULL, stdout=subprocess.PIPE, stderr=subprocess.STDOUT, text=True
    )
    return done.returncode, done.stdout


class Repository:
    """A repository of sdm_num and of crates over it."""

    def __init__(self, top: Path) -> None:
        self.top, self.is_proved = top, bool(os.environ.get("PROVED_BY_RT_CI"))
        shutil.copy(TOP / "HANDLES", top)
        shutil.copytree(TOP / "crates" / "sdm_num", top / "crates" / "sdm_num")
        subprocess.run(["git", "init", "-q", str(top)], check=True)
        lines = (TOP / "crates.txt").read_text().splitlines(keepends=True)
        self.crates = "".join(line for line in lines if line.startswith("sdm_num:"))
        (top / "crates.txt").write_text(self.crates)
        if not self.is_proved:
            code, log = ended(["rt", "check"], top / "crates" / "sdm_num")
            if code:
                raise Fault(f"sdm_num isn't proved: {log}")

    def check(self, name: str, source: str) -> tuple[int, str]:
        """How the check of a source as a crate ends, and what it told."""
        folder = self.top / "crates" / name
        (folder / "src").mkdir(parents=True)
        (folder / "src" / "lib.rt").write_text(source)
        self.crates += f"{name}: sdm_num\n"
        (self.top / "crates.txt").write_text(self.crates)
        return ended(over_proved(name) if self.is_proved else ["rt", "check"], folder)


def faults_of(repository: Repository, snippet: Path) -> Iterator[str]:
    """What is wrong with a snippet or its control."""
    name, source = snippet.stem, snippet.read_text()
    code, log = repository.check(name, source)
    errors = [line for line in log.splitlines() if "error" in line]
    if code == 0:
        yield f"{name}: was accepted"
    elif not any("Early" in line and "Late" in line for line in errors):
        yield "\n".join([f"{name}: refused for another reason", *errors])
    control = re.sub(r"= (Early|Late)::exact", lambda found: f"= {OTHERS[found[1]]}::exact", source)
    code, log = repository.check(f"{name}_control", control)
    if code:
        yield f"{name}: its control is refused\n{log}"


def main(_: list[str]) -> int:
    snippets = sorted(SNIPPETS.glob("*.txt"))
    with tempfile.TemporaryDirectory() as scratch:
        repository = Repository(Path(scratch))
        faults = [fault for snippet in snippets for fault in faults_of(repository, snippet)]
    return told("refused", 2 * len(snippets), faults)
