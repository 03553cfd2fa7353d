"""Copies of the repository, in which faults are planted, and a program that stands in for the built one there."""
from __future__ import annotations

import compileall
import os
import re
import shutil
import subprocess
import sys
import tempfile
from contextlib import contextmanager
from pathlib import Path
from typing import Iterator

TOP = Path(__file__).resolve().parents[2]
SECONDS = 900  # the longest that a script may take, on a machine that others use, too

# The model, with what Python compiles of it beside it: else each of its starts, of which there are hundreds, would
# compile it anew.
SCRATCH = tempfile.TemporaryDirectory()
shutil.copytree(TOP / "python" / "sdm_evidence", Path(SCRATCH.name) / "sdm_evidence")
compileall.compile_dir(SCRATCH.name, quiet=1)
MODEL = f"PYTHONPATH={SCRATCH.name} {sys.executable} -S -B -m sdm_evidence.model"

PACKAGES = ["python/sdm", "python/sdm_evidence"]  # every script ends as the package's tools do


@contextmanager
def a_copy(parts: list[str]) -> Iterator[Path]:
    """A copy of the files that are kept of some parts of the repository, as a repository of its own. Parts are told as
    to git; the whole takes seconds to copy, so a copy has what the script under test reads, and the packages."""
    if not all(part.startswith(":!") for part in parts):
        parts = [*parts, *PACKAGES]
    words = ["git", "-C", str(TOP), "ls-files", "-z", "--cached", "--others", "--exclude-standard", "--", *parts]
    names = subprocess.run(words, check=True, capture_output=True, text=True).stdout.split("\0")
    with tempfile.TemporaryDirectory() as scratch:
        top = Path(scratch)
        for name in filter(None, names):
            if (TOP / name).is_file():
                (top / name).parent.mkdir(parents=True, exist_ok=True)
                shutil.copy(TOP / name, top / name)
        subprocess.run(["git", "init", "-q", str(top)], check=True)
        yield top


def ended(top: Path, *words: str, path: str | None = None, seconds: int = SECONDS) -> tuple[int, str]:
    """The exit status of a script of a copy, and all that it told. On the path that it has by itself, the Python of
    these tests comes first: there `python3` may be a script that looks for it."""
    path = path or f"{Path(sys.executable).parent}:{os.environ['PATH']}"
    done = subprocess.run(
        [str(top / words[0]), *words[1:]],
        cwd=top,
        env={**os.environ, "PATH": path},
        stdin=subprocess.DEVNULL,
        stdout=subprocess.PIPE,
        stderr=subprocess.STDOUT,
        text=True,
        errors="replace",
        timeout=seconds,
        check=False,
    )
    return done.returncode, done.stdout


def alter(top: Path, file: str, pattern: str, new: str) -> None:
    """Puts another text in the place of the first that a pattern finds in a file of a copy."""
    text, count = re.subn(pattern, new, (top / file).read_text(), count=1, flags=re.M)
    if not count:
        raise ValueError(f"{file} has nothing like {pattern}")
    (top / file).write_text(text)


def keep_groups(top: Path, *groups: str) -> None:
    """Leaves some groups of vectors/ to the maker of a copy, which would take its time for all."""
    fewer = f"GROUPS = {{name: GROUPS[name] for name in {groups}}}\n\n\n"
    alter(top, "vectors/maker/files.py", "^(?=def files_of)", fewer)
    digests = top / "vectors" / "DIGESTS"
    lines = digests.read_text().splitlines(keepends=True)
    digests.write_text("".join(line for line in lines if line.startswith(tuple(f"{group} " for group in groups))))


def no_vectors(top: Path) -> None:
    """Puts a maker into a copy without vectors/ that makes none."""
    maker = top / "vectors" / "make"
    maker.parent.mkdir()
    maker.write_text("#!/bin/bash\n")
    maker.chmod(0o755)


def stand_in(top: Path, filtered: str = "cat", status: str = "", name: str = "crates/sdm/out/sdm") -> None:
    """A program in a copy that does as the model of this repository, its rows through a filter, or with another exit
    status."""
    built = top / name
    built.parent.mkdir(parents=True, exist_ok=True)
    built.write_text(f'#!/bin/bash\n{MODEL} "$@" | {filtered}\nexit ${{PIPESTATUS[0]}}{status}\n')
    built.chmod(0o755)


def mark(top: Path) -> tuple[int, str]:
    """Marks the program of a copy as of its sources."""
    return ended(top, "scripts/house", "program", "mark", ended(top, "scripts/house", "program", "sources")[1].strip())


def marked_as_it_is(top: Path, product: str = "PROGRAM") -> None:
    """Marks the program of a copy, whatever it answers, or the library."""
    code = f"from sdm.laboratory.program import {product} as it, sum_of, sum_of_sources; "
    code += "it.mark.write_text(f'sources {sum_of_sources()}\\n{it.kind} {sum_of(it.path)}\\n')"
    subprocess.run([sys.executable, "-B", "-c", code], cwd=top / "python", check=True)
