"""An archive of the prover's LLVM module for another processor, by the toolchain's clang. It is of proved sources, and
the step from the module to it is no more than tested."""
from __future__ import annotations

import os
import subprocess
import tempfile
from pathlib import Path

from scripts.processors import layout
from scripts.processors.retarget import retargeted, with_wide_results
from scripts.processors.targets import PROVED, Machine
from scripts.processors.tools import clang, must, ran

OPTIONS = ["-O3", "-fPIC", "-ffunction-sections", "-fdata-sections", "--no-default-config"]


def text_of(bitcode: Path) -> str:
    """The LLVM module as text."""
    words: list[str | Path] = [
        f"--target={PROVED.triple}",
        "-x",
        "ir",
        bitcode,
        "-S",
        "-emit-llvm",
        "-Xclang",
        "-disable-llvm-passes",
    ]
    return ran(clang(), *words, "-o", "-").decode()


def archived(parts: list[Path], archive: Path) -> None:
    """Puts objects into an archive, by the toolchain's clang under its other name."""
    archive.unlink(missing_ok=True)
    words: list[str | Path] = ["llvm-ar", "rcsD", str(archive), *map(str, parts)]
    done = subprocess.run(words, executable=clang(), env=os.environ, capture_output=True, check=False)
    must(done.returncode == 0, f"{archive.name} isn't made: {done.stderr.decode(errors='replace')}")


def write(bitcode: Path, machine: Machine, archive: Path) -> None:
    """Writes the archive for a machine."""
    names = layout.names()
    text = with_wide_results(retargeted(text_of(bitcode), machine.triple, machine.layout, names), machine, names)
    with tempfile.TemporaryDirectory() as name:
        module, made = Path(name) / "module.ll", Path(name) / "module.o"
        module.write_text(text)
        words: list[str | Path] = [
            f"--target={machine.triple}",
            *machine.options,
            *OPTIONS,
            "-Werror",
            "-c",
            "-x",
            "ir",
            module,
        ]
        ran(clang(), *words, "-o", made)
        archived([made], archive)
