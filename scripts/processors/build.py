"""Builds the library for other processors, in crates/sdm_c/out/processors, by

    scripts/house library build --for NAME..

aarch64    64-bit ARM with Linux, proved and built by the toolchain: a folder that runs anywhere, a Debian package
riscv64    64-bit RISC-V with Linux: the same, of the LLVM module of aarch64
wasm       WebAssembly, as an npm package: a folder, and the file that `npm pack` makes of it
c          C source, with a kit to try it on the target
all        all of these

Each first proves and builds the archive for aarch64, where that isn't of these sources. For aarch64 the prover builds
what it proved. All else is tested, and nothing of it is proved. docs/PROCESSORS.md says what is trusted."""
from __future__ import annotations

import shutil
import sys
from collections.abc import Callable
from dataclasses import replace
from functools import cache
from pathlib import Path

from scripts.packing import sums
from scripts.packing.facts import Release
from scripts.processors import installed, machine, package, portable, proved, wasm
from scripts.processors.targets import MACHINES, PROVED, Machine
from scripts.processors.tools import ran
from sdm.laboratory.program import TOP, Fault

FOLDER = proved.FOLDER


def release_of_these() -> Release:
    """What is told of the sources that lie here, as of a release; `work` where they are no commit."""
    from scripts.packing import release  # which takes what is built here

    facts = release.facts(proved.ARCHIVE.marked())
    is_commit = not ran("git", "status", "--porcelain", "--untracked-files=no")
    return facts if is_commit else replace(facts, version=f"{facts.version}+work")


def told_of(release: Release, step: str) -> str:
    """The lines of BUILD: from what it was made, and by which step."""
    return f"version {release.version}\ncommit {release.commit}\n{proved.describe()}step {step}\n"


def for_linux(what: Machine, archive: Path, step: str) -> Path:
    """The prefix and the package of an archive; the folder with both."""
    release, into = release_of_these(), FOLDER / what.processor.name
    shutil.rmtree(into, ignore_errors=True)
    into.mkdir(parents=True)
    told = told_of(release, step)
    prefix = into / f"sdm-{release.version}-{what.processor.name}-linux"
    installed.write_prefix(release, what, archive, prefix, told)
    installed.must_be_of(what, prefix)
    installed.write_package(release, what, archive, into, told)
    return into


def prefix_of(folder: Path) -> Path:
    """The prefix in a folder that was built for Linux."""
    return next(path for path in folder.iterdir() if path.is_dir())


def aarch64() -> Path:
    return for_linux(PROVED, proved.ARCHIVE.path, "the archive that the prover's build left")


def riscv64() -> Path:
    what = MACHINES["riscv64"]
    archive = FOLDER / "riscv64.a"
    machine.write(proved.MODULE.path, what, archive)
    return for_linux(what, archive, f"the LLVM module, retargeted for {what.triple}, by the toolchain's clang: tested")


@cache
def modules() -> tuple[Path, Path]:
    """The WebAssembly modules of 64 and of 32 bits, which one run makes once."""
    into = FOLDER / "modules"
    into.mkdir(parents=True, exist_ok=True)
    wide, narrow = into / "sdm-64.wasm", into / "sdm.wasm"
    wasm.write(proved.MODULE.path, wide, narrow)
    return wide, narrow


def web_assembly() -> Path:
    into, release = FOLDER / "wasm", release_of_these()
    shutil.rmtree(into, ignore_errors=True)
    package.write(release, *modules(), into / "sdm", told_of(release, "the LLVM module as WebAssembly: tested"))
    return into


def c_source() -> Path:
    into, release = FOLDER / "c", release_of_these()
    shutil.rmtree(into, ignore_errors=True)
    portable.write(modules()[1], into)
    (into / "BUILD").write_text(told_of(release, "the WebAssembly module of 32 bits, as C by wasm2c: tested"))
    return into


WAYS: dict[str, Callable[[], Path]] = {"aarch64": aarch64, "riscv64": riscv64, "wasm": web_assembly, "c": c_source}


def build(names: list[str]) -> None:
    """Builds what is named, and prints the checksum of each file."""
    proved.must_hold()
    for name in WAYS if names == ["all"] else names:
        into = WAYS[name]()
        (into / sums.NAME).write_text(sums.of_files_below(into))
        print(f"{into.relative_to(TOP)}:")
        print((into / sums.NAME).read_text(), end="")


def build_for(words: list[str]) -> int:
    if not words or not set(words) <= {*WAYS, "all"}:
        print((__doc__ or "").strip(), file=sys.stderr)
        return 2
    try:
        build(words)
    except Fault as why:
        print(f"library: {why}", file=sys.stderr)
        return 1
    return 0
