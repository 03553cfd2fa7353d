"""The archive for 64-bit ARM, by the prover, with the LLVM module that it was compiled from. The prover passes the
module to its clang as a file module.bc in a folder of its own; a script in that clang's place copies it."""
from __future__ import annotations

import os
import tempfile
from collections.abc import Iterator
from contextlib import contextmanager
from pathlib import Path

from scripts.processors.targets import PROVED
from scripts.processors.tools import kit, must
from scripts.product import marks
from sdm.laboratory.program import LIBRARY, TOP, Fault, Product, sum_of_sources

FOLDER = LIBRARY.path.parent / "processors"
ARCHIVE = Product("library", FOLDER / "proved" / "libsdm_c.a")
MODULE = Product("module", FOLDER / "proved" / "module.bc")
INCREMENTAL = "out/incremental"  # what `rt lib` keeps of the proofs
BITCODE = b"BC\xc0\xde"
KEEPING = """#!/bin/sh
if [ -f module.bc ] && [ ! -f '{module}' ]; then cp module.bc '{module}'; fi
exec '{clang}' "$@"
"""


@contextmanager
def toolchain_that_keeps(module: Path) -> Iterator[Path]:
    """The toolchain's folder with another clang, which copies the first module that it gets to a path."""
    with tempfile.TemporaryDirectory() as made:
        folder, theirs = Path(made), kit() / "toolchain"
        (folder / "bin").mkdir()
        (folder / "lib").symlink_to(theirs / "lib")
        for tool in sorted((theirs / "bin").iterdir()):
            if tool.name != "clang":
                (folder / "bin" / tool.name).symlink_to(tool)
        clang = folder / "bin" / "clang"
        clang.write_text(KEEPING.format(module=module, clang=theirs / "bin" / "clang"))
        clang.chmod(0o755)
        yield folder


def words_for(toolchain: Path) -> list[str]:
    """The command that proves and builds the archive, with a toolchain's folder, over the libraries below it."""
    words = marks.words_over_proved("sdm_c", LIBRARY.path)
    jobs = str(len(os.sched_getaffinity(0)))
    for option, value in (("--toolchain", str(toolchain)), ("-o", str(ARCHIVE.path)), ("--jobs", jobs)):
        words[words.index(option) + 1] = value
    words += ["--target", PROVED.triple, "--backend", "llvm"]
    if (TOP / "crates" / "sdm_c" / INCREMENTAL).is_dir():
        words += ["--incremental", INCREMENTAL]
    return words


def build() -> None:
    """Proves and builds the archive, and marks it and its module. The libraries below it must be of these sources:
    those that `rt ci` left, where PROVED_BY_RT_CI is set, and else those over which `rt lib` builds."""
    before = sum_of_sources()
    if LIBRARY.fault() or not os.environ.get("PROVED_BY_RT_CI"):
        marks.build_library(LIBRARY)
    for product in (ARCHIVE, MODULE):
        product.mark.unlink(missing_ok=True)
        product.path.unlink(missing_ok=True)
        product.path.parent.mkdir(parents=True, exist_ok=True)
    with toolchain_that_keeps(MODULE.path) as toolchain:
        if marks.ended(words_for(toolchain), "sdm_c"):
            raise Fault(f"The library isn't proved and built for {PROVED.triple}.")
    must(MODULE.path.is_file(), "the toolchain's clang got no module.bc, so the LLVM module wasn't kept")
    must(MODULE.path.read_bytes().startswith(BITCODE), "what the toolchain's clang got as module.bc is no LLVM module")
    for product in (ARCHIVE, MODULE):
        marks.mark(product, before, f"rattle build for {PROVED.triple} over proved libraries")


def must_hold() -> None:
    """Builds the archive where it isn't that of these sources, or its module isn't."""
    if ARCHIVE.fault() or MODULE.fault():
        build()


def describe() -> str:
    """The lines that say from what a build was made."""
    return ARCHIVE.mark.read_text() + f"module {MODULE.marked()['module']}\n"
