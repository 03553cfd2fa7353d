"""Counts lines by crate, as `wc -l` does: code (src/ without tests), tests, specs, proofs; with the edits
and the public definitions of specs/, in numbers. Below the table, the lines of docs/, scripts/, tools/, python/ and
bench/.

    scripts/house show lines           prints a table in Markdown
    scripts/house show lines COMMIT    prints that of a commit, and how much each has more now
"""
from __future__ import annotations

import subprocess
import tempfile
from collections import Counter
from collections.abc import Iterable, Iterator
from pathlib import Path

from scripts.editing.edits import FOLDERS as FOLDERS_OF_EDITS
from scripts.pages import specs
from scripts.pages.specs import ROOT

KINDS = ["code", "tests", "specs", "proofs", "edits", "definitions"]
FOLDERS = ["docs", "scripts", "tools", "python", "bench"]


def is_test(path: Path) -> bool:
    """Whether a source file, by its path in src/, has tests alone."""
    return "tests" in path.with_suffix("").parts


def lines_of(paths: Iterable[Path]) -> int:
    """The lines of files in sum."""
    return sum(path.read_bytes().count(b"\n") for path in paths)


def counts_of(crate: Path) -> Counter[str]:
    """What a crate's folder has of each kind."""
    sources = list((crate / "src").rglob("*.rt"))
    tests = [path for path in sources if is_test(path.relative_to(crate / "src"))]
    spec_files = list((crate / "specs").rglob("*.antt"))
    return Counter(
        {
            "code": lines_of(sources) - lines_of(tests),
            "tests": lines_of(tests),
            "specs": lines_of(spec_files),
            "proofs": lines_of((crate / "proofs").rglob("*.antt")),
            "edits": len([path for folder in FOLDERS_OF_EDITS for path in (crate / folder).glob("*.edit")]),
            "definitions": sum(1 for path in spec_files for _ in specs.definitions(path)),
        }
    )


def counted(top: Path) -> dict[str, Counter[str]]:
    """crate -> its counts, in the order of crates.txt."""
    return {name: counts_of(top / "crates" / name) for name, _ in specs.crates_with_libraries(top)}


def rows(now: dict[str, Counter[str]], then: dict[str, Counter[str]]) -> Iterator[str]:
    """The lines of the table: with what there is more than then, where a commit was named."""

    def cell(count: int, before: int) -> str:
        return f"{count:,}" + (f" ({count - before:+,})" if then else "")

    yield "| Crate | " + " | ".join(kind.capitalize() for kind in KINDS) + " |"
    yield "|---|" + "---:|" * len(KINDS)
    for name in [*now, *(name for name in then if name not in now)]:
        here, there = now.get(name, Counter()), then.get(name, Counter())
        yield f"| `{name}` | " + " | ".join(cell(here[kind], there[kind]) for kind in KINDS) + " |"
    sums = [sum(counts.values(), Counter[str]()) for counts in (now, then)]
    yield "| all | " + " | ".join(cell(sums[0][kind], sums[1][kind]) for kind in KINDS) + " |"


def kept(top: Path, folder: str) -> int:
    """The lines of the files of a folder that a repository keeps."""
    words = ["git", "-C", str(top), "ls-files", "-z", folder]
    names = subprocess.run(words, check=True, capture_output=True, text=True).stdout.split("\0")
    return lines_of(top / name for name in names if name)


def main(words: list[str]) -> int:
    if len(words) > 1 or words[:1] == ["--help"]:
        print(__doc__.strip())
        return 2
    then, before = {}, {}
    if words:
        with tempfile.TemporaryDirectory() as scratch:
            subprocess.run(["git", "clone", "-q", str(ROOT), scratch], check=True)
            subprocess.run(["git", "-C", scratch, "checkout", "-q", words[0]], check=True)
            then = counted(Path(scratch))
            before = {folder: kept(Path(scratch), folder) for folder in FOLDERS}
    print("\n".join(rows(counted(ROOT), then)))
    told = [
        f"{folder}/ {kept(ROOT, folder):,}" + (f" ({kept(ROOT, folder) - before[folder]:+,})" if words else "")
        for folder in FOLDERS
    ]
    print(f"\nLines of {', '.join(told)}.")
    return 0
