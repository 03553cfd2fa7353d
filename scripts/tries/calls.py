"""Journeys, how the built program ends over them with a call that fails from outside, and what that may change: the
parts of scripts/house try faults. docs/ASSUMPTIONS.md says the same for assessors."""
from __future__ import annotations

import os
import subprocess
from collections.abc import Sequence
from dataclasses import dataclass
from pathlib import Path

ROOT = Path(__file__).resolve().parents[2]
EXAMPLES = ROOT / "examples"
PRELOADED = ROOT / "scripts" / "tries" / "failing-calls.c"

MEMORY_LINE = b"sdm: no memory\n"
READ_LINE = b"sdm: read fault\n"
WRITE_LINE = b"sdm: write fault\n"

SECONDS = 60  # the longest that a run may take


@dataclass(frozen=True)
class Ended:
    """How a run ended: its exit status, or the signal that killed it below 0, and what it wrote."""

    code: int
    out: bytes
    err: bytes


@dataclass(frozen=True)
class Journey:
    """The words and the input of a run, and how it ends with no fault."""

    name: str
    words: tuple[str, ...]
    given: bytes
    whole: Ended

    def keeps_rows_at_want_of_memory(self) -> bool:
        """Whether rows may stand when memory is wanting: `flat` and `trial` take all their memory first, `upgrade` and
        `drive` before they write."""
        return self.words[0] in ("run", "display", "why", "certify", "check")


def example(name: str) -> Journey:
    """The journey of a folder of examples/, whose end was found apart from the program."""
    folder = EXAMPLES / name
    code = int((folder / "code").read_text()) if (folder / "code").exists() else 0
    err = (folder / "err").read_bytes() if (folder / "err").exists() else b""
    words = tuple((folder / "args").read_text().split("\n")[:-1])
    return Journey(name, words, (folder / "input").read_bytes(), Ended(code, (folder / "rows").read_bytes(), err))


def thousand_rows(program: Path) -> Journey:
    """The realistic data with 1,000 readings of a train that runs on at 30 m/s; its end is that of a run with no
    fault."""
    text = (EXAMPLES / "realistic" / "input").read_text()
    head = text[: text.index("%%\n") + len("%%\n")]
    readings = "".join(
        f"read,{ds},{3_000 * ds},{3_000 * ds - 5_000},{3_000 * ds + 5_000},30000,0,500\n" for ds in range(1_000)
    )
    given = (head + readings).encode()
    return Journey("1,000 rows", ("run",), given, run(program, ("run",), given))


def usage() -> Journey:
    """Words of no shape."""
    return Journey("no shape", ("--help",), b"", Ended(1, b"", b"sdm: bad words\n"))


def run(
    program: Path,
    words: Sequence[str],
    given: bytes,
    more: dict[str, str] | None = None,
    before: Sequence[str] = (),
    out: int = subprocess.PIPE,
) -> Ended:
    """Runs the program over bytes, with further words of the environment, a command before it, and another output."""
    try:
        ran = subprocess.run(
            [*before, str(program), *words],
            input=given,
            env={**os.environ, **(more or {})},
            stdout=out,
            stderr=subprocess.PIPE,
            timeout=SECONDS,
            check=False,
        )
    except subprocess.TimeoutExpired:
        return Ended(-9, b"", b"it runs on")
    return Ended(ran.returncode, ran.stdout or b"", ran.stderr)


def preload(folder: Path) -> Path:
    """Builds the library that fails calls; its path."""
    built = folder / "failing-calls.so"
    subprocess.run(["cc", "-shared", "-fPIC", "-O1", "-o", str(built), str(PRELOADED)], check=True)
    return built


def counts(program: Path, library: Path, journey: Journey, folder: Path) -> dict[str, int]:
    """How many calls of each kind a run with no fault makes."""
    told = folder / "counts"
    run(program, journey.words, journey.given, {"LD_PRELOAD": str(library), "FAULT_COUNTS": str(told)})
    words = told.read_text().split()
    return {name: int(number) for name, number in zip(words[::2], words[1::2])}


# ---- what a fault may change; each answers what is wrong, or None


def is_whole_lines(text: bytes) -> bool:
    """Whether a text is nothing or ends with a line feed."""
    return text == b"" or text.endswith(b"\n")


def unchanged(journey: Journey, ended: Ended) -> str | None:
    """The run ended as with no fault."""
    return None if ended == journey.whole else "it didn't end as with no fault"


def memory_wanting(journey: Journey, ended: Ended) -> str | None:
    """Memory was refused: the program did without it, or says so after whole rows."""
    if ended == journey.whole:
        return None
    if ended.code != 8 or ended.err != MEMORY_LINE:
        return "it isn't code 8 with its line"
    if not journey.whole.out.startswith(ended.out) or not is_whole_lines(ended.out):
        return "out holds no whole rows of the text"
    if ended.out and not journey.keeps_rows_at_want_of_memory():
        return "out holds rows"
    return None


def read_failed(journey: Journey, ended: Ended) -> str | None:
    """A read failed: nothing was written, by `live` whole answers, and the line says so."""
    if ended.code != 2 or ended.err != READ_LINE:
        return "it isn't code 2 with its line"
    if journey.words != ("live",):
        return "out holds rows" if ended.out else None
    if not journey.whole.out.startswith(ended.out) or not is_whole_lines(ended.out):
        return "out holds no whole answers"
    return None


def write_failed(journey: Journey, ended: Ended) -> str | None:
    """A write to out failed: out holds a prefix of the text."""
    if ended.code != 3 or ended.err != WRITE_LINE:
        return "it isn't code 3 with its line"
    return None if journey.whole.out.startswith(ended.out) else "out holds no prefix of the text"


def line_failed(journey: Journey, ended: Ended) -> str | None:
    """A write to err failed: nothing else changed."""
    if (ended.code, ended.out) != (journey.whole.code, journey.whole.out):
        return "the code or out changed"
    return None if journey.whole.err.startswith(ended.err) else "err holds no prefix of the line"
