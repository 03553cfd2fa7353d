"""Fails where black lays the Python of this repository out otherwise than it is, flake8 finds a fault, mypy a type that
doesn't hold, or shellcheck a fault in a script of bash. The tables of vectors/maker stand as they are written.
"""
from __future__ import annotations

import re
import subprocess
from pathlib import Path

from sdm.laboratory.program import TOP

FOLDERS = ["python", "scripts", "bench", "tools"]
SETTINGS, LAYOUT = "python/pyproject.toml", "python/flake8.ini"
TYPED = ["python/sdm", "python/sdm_evidence", "scripts"]


def beginning(word: str) -> list[str]:
    """The files that are kept, or would be, and whose first line is that of a script of a language."""
    words = ["git", "ls-files", "--cached", "--others", "--exclude-standard", "-z"]
    names = subprocess.run(words, cwd=TOP, check=True, capture_output=True, text=True).stdout.split("\0")
    return sorted(name for name in names if name and is_script(TOP / name, word))


def is_script(path: Path, word: str) -> bool:
    """Whether a file is a script of a language."""
    if not path.is_file():
        return False
    with path.open("rb") as file:
        return re.match(rb"#!.*" + word.encode(), file.readline(200)) is not None


def main(_: list[str]) -> int:
    commands, scripts = beginning("python3"), beginning("bash")
    tools = {
        "black": ["--quiet", "--check", "--config", SETTINGS, *FOLDERS, *commands],
        "flake8": ["--config", LAYOUT, *FOLDERS, *commands, "vectors/maker"],
        "mypy": ["--config-file", SETTINGS, *TYPED],
        "shellcheck": ["--external-sources", "--source-path=SCRIPTDIR", *scripts],
    }
    failed = [name for name, words in tools.items() if subprocess.run([name, *words], cwd=TOP).returncode]
    if "black" in failed:
        print("black lays it out otherwise")
    print(f"python: {len(commands)} commands, {len(scripts)} scripts of bash; failed: {', '.join(failed) or 'none'}")
    return int(bool(failed))
