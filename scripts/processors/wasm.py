"""The WebAssembly modules: one whose memory counts in 64 bits, as the module of the prover does, and one of 32 bits
that is made of it. They take nothing from outside, and have their own heap."""
from __future__ import annotations

import tempfile
from collections.abc import Callable
from pathlib import Path

from scripts.c import header
from scripts.processors import binary, layout
from scripts.processors.machine import archived, text_of
from scripts.processors.retarget import exporting, retargeted
from scripts.processors.targets import WASM64
from scripts.processors.tools import clang, kit, must, ran
from sdm.laboratory.program import TOP

# What stands beside the crate's code in the module: its heap, and the texts of statuses.
HEAP, TEXTS = TOP / "c" / "module" / "heap_module.c", TOP / "c" / "sdm_text.c"
BLOCKS = ["block_take", "block_free"]  # what the heap exports
STACK_BYTES = 65536
# What the toolchain passes to its clang for wasm64.
LOWERED = ["-expand-div-rem-bits=64", "-expand-fp-convert-bits=64", "-trap-unreachable", "-disable-machine-licm"]
LOWERED += ["-disable-postra-machine-licm", "-sink-common-insts=false"]
FLAGS = [f"--target={WASM64[0]}", "-mcpu=lime1", *(word for each in LOWERED for word in ("-mllvm", each))]
FLAGS += ["-ffunction-sections", "-fdata-sections", "--no-default-config", "-no-canonical-prefixes"]
OF_THE_HOST = {"memory": "memory", "__heap_base": "global", **dict.fromkeys(BLOCKS, "function")}
NARROW = ["--enable-memory64", "--enable-bulk-memory", "--memory64-lowering"]


def freestanding() -> list[str]:
    """The options by which clang finds the headers of a compiler alone."""
    of_gcc = Path(ran("gcc", "-print-file-name=include/stddef.h").decode().strip()).parent
    own = [f"-I{TOP / 'c'}", "-isystem", str(TOP / "c" / "module" / "headers")]
    return ["-ffreestanding", "-nostdinc", *own, "-isystem", str(of_gcc)]


def compiled(text: str, into: Path) -> Path:
    """An LLVM module, as text, compiled."""
    written = into.with_suffix(".ll")
    written.write_text(text)
    ran(clang(), *FLAGS, "-Werror", "-O3", "-c", "-x", "ir", written, "-o", into)
    return into


def compiled_c(source: Path, exported: list[str], into: Path) -> Path:
    """A file in C, compiled. It becomes an LLVM module first, so that it exports functions as the other module does."""
    words = ["-Wall", "-Wextra", "-Werror", "-std=c11", "-O2", "-S", "-emit-llvm", str(source), "-o", "-"]
    text = ran(clang(), *FLAGS, *freestanding(), *words).decode()
    return compiled(exporting(text, exported), into)


Change = Callable[[str], str]  # of the module's text, where a mistake is planted


def objects(bitcode: Path, heap: Path, scratch: Path, changed: Change) -> list[Path]:
    """The retargeted module, compiled, and what stands beside it."""
    names = layout.names()
    text = exporting(retargeted(text_of(bitcode), *WASM64, names), names)
    return [
        compiled(changed(text), scratch / "module.o"),
        compiled_c(heap, BLOCKS, scratch / "heap.o"),
        compiled_c(TEXTS, sorted(header.texts(header.text())), scratch / "texts.o"),
    ]


def must_be_whole(module: bytes, name: str) -> None:
    """A fault where a module imports something, or exports something else than the calls, memory and blocks."""
    due = {call: "function" for call in [*layout.names(), *header.texts(header.text())]} | OF_THE_HOST
    must(binary.imports(module) == 0, f"{name} imports something")
    found = binary.exports(module)
    must(found == due, f"{name} exports {' '.join(sorted(found))}, and not {' '.join(sorted(due))}")


def write(bitcode: Path, wide: Path, narrow: Path, heap: Path = HEAP, changed: Change = str) -> None:
    """Writes the module of 64 bits and that of 32 bits, with a heap."""
    linker, toolchain = kit() / "bin" / "rattle-link", kit() / "toolchain"
    with tempfile.TemporaryDirectory() as name:
        scratch = Path(name)
        archived(objects(bitcode, heap, scratch, changed), scratch / "whole.a")
        words = ["--target", WASM64[0], "--toolchain", str(toolchain), "--stack", str(STACK_BYTES)]
        ran(linker, *words, "-o", wide, scratch / "whole.a")
        ran("wasm-opt", *NARROW, wide, "-o", narrow)
    for path in (wide, narrow):
        must_be_whole(path.read_bytes(), path.name)
