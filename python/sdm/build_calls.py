"""`python3 -m sdm.build_calls [ARCHIVE [OUT]]`: makes the shared library that sdm.calls takes of the proved static one
of c/sdm_calls.h, for which it is linked with c/sdm_calls.c and the heap c/heap_malloc.c. It needs a C compiler, `cc`.
"""
from __future__ import annotations

import subprocess
import sys
import tempfile
from pathlib import Path

from sdm.calls import INSTALLED, LAYOUT, PLACES
from sdm.laboratory.program import CALLS, TOP

BESIDE = ["sdm_calls", "heap_malloc"]  # of c/, beside the crate's code
SHOWN = ("sdm_calls_layout", "sdm_code_text", "sdm_command*", "sdm_buffer_free")  # the calls of c/sdm_calls.h
# Nothing else is shown, so what the crate asks of C is answered in the library, and by nothing else of the process.
SCRIPT = f"SDM_CALLS_{LAYOUT} {{ global: {' '.join(f'{name};' for name in SHOWN)} local: *; }};\n"


def build(archive: Path, out: Path) -> None:
    """Links an archive into a shared library. Raises OSError or CalledProcessError where that fails."""
    whole = ["-Wl,--whole-archive", str(archive), "-Wl,--no-whole-archive"]
    beside = [str(TOP / "c" / f"{name}.c") for name in BESIDE]
    with tempfile.NamedTemporaryFile("w", suffix=".map") as script:
        script.write(SCRIPT)
        script.flush()
        shown = [f"-Wl,--version-script={script.name}", f"-Wl,-soname,{INSTALLED}", "-Wl,-z,defs"]
        subprocess.run(
            ["cc", "-shared", "-fPIC", "-O2", "-std=c11", *shown, "-o", str(out), *beside, *whole], check=True
        )


def main(words: list[str]) -> int:
    """Builds it from the words' archive, else from that of the repository."""
    archive = Path(words[0]) if words else CALLS.path
    if not archive.is_file():
        print(f"build_calls: {archive} isn't there; `scripts/house calls-library build` makes it", file=sys.stderr)
        return 1
    build(archive, Path(words[1]) if words[1:] else PLACES[1])
    return 0


if __name__ == "__main__":
    sys.exit(main(sys.argv[1:]))
