"""How a tool is run, and where it is."""
from __future__ import annotations

import os
import shutil
import subprocess
from collections.abc import Mapping
from functools import cache
from pathlib import Path

from sdm.laboratory.program import TOP, Fault

SETUP = "`scripts/setup processors` installs it"


def ran(
    *words: str | Path, into: Path | None = None, given: bytes | None = None, more: Mapping[str, str] = {}
) -> bytes:
    """What a command prints, run in a folder, with more variables; a fault where it fails or isn't there."""
    environment = {**os.environ, "LC_ALL": "C.UTF-8", "TZ": "UTC", **more}
    try:
        done = subprocess.run(words, cwd=into or TOP, env=environment, input=given, capture_output=True, check=False)
    except FileNotFoundError:
        raise Fault(f"{words[0]} is missing; {SETUP}.") from None
    if done.returncode:
        told = done.stderr.decode(errors="replace").strip()[-2000:]
        raise Fault(f"{' '.join(map(str, words[:8]))} ended with {done.returncode}: {told}")
    return done.stdout


def is_there(name: str) -> bool:
    """Whether a tool is on the path."""
    return shutil.which(name) is not None


@cache
def kit() -> Path:
    """The folder of the toolchain."""
    return Path(ran("rt", "doc").decode().strip()).parent


def clang() -> Path:
    """The toolchain's clang."""
    return kit() / "toolchain" / "bin" / "clang"


def must(fact: bool, why: str) -> None:
    """A fault where a step doesn't find what it relies on."""
    if not fact:
        raise Fault(why)
