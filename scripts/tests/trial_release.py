"""Packs files that nobody proved, to try the packing by. What comes out is named `VERSION+unmarked`, so that nobody
takes it for a release: scripts/release packs nothing but a marked program and a marked library.

    python3 -B scripts/tests/trial_release.py PROGRAM LIBRARY CALLS FOLDER
"""
from __future__ import annotations

import sys
from dataclasses import replace
from pathlib import Path

from scripts.packing import release
from scripts.packing.facts import Release
from scripts.packing.work import Built, pack
from scripts.pages import manual
from sdm.laboratory.program import Fault


def trial_facts() -> Release:
    """What is told of a trial."""
    facts = release.facts({"kit": "unmarked", "sources": "unmarked"})
    return replace(facts, version=f"{manual.version()}+unmarked")


def main(words: list[str]) -> int:
    if len(words) != 4:
        print(__doc__.strip(), file=sys.stderr)
        return 2
    program, library, calls, into = (Path(word).resolve() for word in words)
    try:
        for path in pack(trial_facts(), Built(program, library, calls), into):
            print(path)
    except Fault as why:
        print(f"trial_release: {why}", file=sys.stderr)
        return 1
    return 0


if __name__ == "__main__":
    sys.exit(main(sys.argv[1:]))
