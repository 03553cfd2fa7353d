"""`python3 -m sdm.build_library [ARCHIVE [OUT]]`: makes the shared library that sdm.library takes of the proved static
one, for which it is linked with the heap c/heap_malloc.c. It needs a C compiler, `cc`."""
from __future__ import annotations

import subprocess
import sys
from pathlib import Path

from sdm.laboratory.program import LIBRARY, TOP
from sdm.library import PLACES


def build(archive: Path, out: Path) -> None:
    """Links an archive into a shared library. Raises OSError or CalledProcessError where that fails."""
    whole = ["-Wl,--whole-archive", str(archive), "-Wl,--no-whole-archive"]
    subprocess.run(
        ["cc", "-shared", "-fPIC", "-O2", "-o", str(out), str(TOP / "c" / "heap_malloc.c"), *whole], check=True
    )


def main(words: list[str]) -> int:
    """Builds it from the words' archive, else from that of the repository."""
    archive = Path(words[0]) if words else LIBRARY.path
    if not archive.is_file():
        print(f"build_library: {archive} isn't there; `scripts/house library build` makes it", file=sys.stderr)
        return 1
    build(archive, Path(words[1]) if words[1:] else PLACES[1])
    return 0


if __name__ == "__main__":
    sys.exit(main(sys.argv[1:]))
