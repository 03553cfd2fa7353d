"""What is told of a release, and the commands that it is made by."""
from __future__ import annotations

import os
import subprocess
from dataclasses import dataclass
from pathlib import Path

from sdm.laboratory.program import TOP, Fault

TEMPLATES = Path(__file__).resolve().parent / "templates"
MACHINE = "x86_64-linux"
UMASK = 0o022  # of what is run, so that no mode depends on who packs


@dataclass(frozen=True)
class Contents:
    """What is packed: the program, the library that the crate sdm_c is built to, and folders with the files of the
    commit and with those that stand at the same places below each prefix."""

    program: Path
    library: Path
    files: Path
    placed: Path
    calls: Path | None = None  # the library that the crate sdm_calls is built to, where it is packed


@dataclass(frozen=True)
class Release:
    """What is told of a release."""

    version: str
    commit: str
    epoch: int  # the commit's time, in s
    author: str  # of the commit, with an address
    kit: str  # what `rt version` prints
    sources: str  # the checksum of the sources, as scripts/house program has it
    layout: int  # SDM_LAYOUT
    calls: tuple[str, ...]  # of c/sdm.h

    @property
    def name(self) -> str:
        """The name of the archive without its ending, and of the folder in it."""
        return f"sdm-{self.version}-{MACHINE}"

    @property
    def shared_name(self) -> str:
        """The name of the shared library."""
        return f"libsdm.so.{self.layout}"


def ran(*words: str | Path, into: Path | None = None, epoch: int | None = None, given: bytes | None = None) -> bytes:
    """What a command prints, run in a folder; with an epoch the time that its files are to have. A fault where it
    fails."""
    more = {} if epoch is None else {"SOURCE_DATE_EPOCH": str(epoch)}
    environment = {**os.environ, "LC_ALL": "C.UTF-8", "TZ": "UTC", **more}
    try:
        done = subprocess.run(words, cwd=into or TOP, env=environment, input=given, capture_output=True, umask=UMASK)
    except FileNotFoundError:
        raise Fault(f"{words[0]} is missing; `scripts/setup release` installs it.") from None
    if done.returncode:
        raise Fault(f"{' '.join(map(str, words[:6]))} failed: {done.stderr.decode(errors='replace').strip()}")
    return done.stdout


def filled(template: str, **values: object) -> str:
    """The text of a template, with each @NAME@ replaced."""
    text = (TEMPLATES / template).read_text()
    for name, value in values.items():
        text = text.replace(f"@{name.upper()}@", str(value))
    return text
