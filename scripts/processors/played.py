"""Plays packed journeys over a library: the runner of c/portable, compiled with an archive or with the C source."""
from __future__ import annotations

import shutil
import subprocess
from collections.abc import Sequence
from dataclasses import dataclass
from functools import partial
from pathlib import Path

from scripts.processors.targets import X86_64, Processor
from scripts.processors.tools import ran
from sdm.laboratory.program import TOP

PORTABLE = TOP / "c" / "portable"
PATIENCE = 600  # s, for one run
SANITIZERS = "-O1 -g -fsanitize=address,undefined -fno-sanitize-recover=all"
PAGE_BYTES = 65536
TOO_FEW_PAGES = [1, 2, 3]  # of 64 KiB
NO_MEMORY = ("status of the opening: 3, due 0", "has too little memory")  # what the runner tells then
RUNNER = ["run_file.c", "run_packed.c"]
WARNED = ["-std=c11", "-Wall", "-Wextra", "-Werror", "-O2"]


@dataclass(frozen=True)
class Played:
    """How a way came out: what the runner told, or why there is nothing to tell."""

    way: str
    told: str
    is_same: bool


Job = partial[list[Played]]


def emulated(processor: Processor) -> list[str]:
    """The words before a program of a processor: its emulator, with the folder of its C library."""
    return [processor.emulator, "-L", processor.root] if processor.emulator else []


def outcome(way: str, words: Sequence[str | Path]) -> Played:
    """How a run of the runner came out: the last line that it told, or what went wrong."""
    try:
        done = subprocess.run(words, capture_output=True, timeout=PATIENCE, check=False)
    except (OSError, subprocess.TimeoutExpired) as why:
        return Played(way, str(why), False)
    told = (done.stdout or done.stderr).decode(errors="replace").strip().rpartition("\n")[2]
    return Played(way, told or f"ended with {done.returncode}", done.returncode == 0)


def run_over(
    processor: Processor, way: str, journeys: Path, scratch: Path, kind: str, given: dict[str, str], rpath: Path
) -> Played:
    """The runner over a library, static or shared, by what pkg-config tells of it."""
    flags = ran("pkg-config", f"--{kind}", "--cflags", "--libs", "sdm", more=given).decode().split()
    linked = ["-static"] if kind == "static" else [f"-Wl,-rpath,{rpath}"]
    program = scratch / f"run-{kind}"
    sources = [str(PORTABLE / name) for name in RUNNER]
    ran(processor.compiler, *WARNED, f"-I{PORTABLE}", "-o", program, *sources, *flags, *linked)
    return outcome(f"{way}, {processor.name}, {kind}", [*emulated(processor), program, journeys])


def over_archive(processor: Processor, prefix: Path, journeys: Path, scratch: Path) -> list[Played]:
    """The runner over the libraries below a prefix, static and shared."""
    scratch.mkdir(parents=True)
    given, rpath = {"PKG_CONFIG_LIBDIR": str(prefix / "lib" / "pkgconfig")}, prefix / "lib"
    return [run_over(processor, "archive", journeys, scratch, kind, given, rpath) for kind in ("static", "shared")]


def of_package(processor: Processor, package: Path, journeys: Path, scratch: Path) -> list[Played]:
    """The runner over the libraries of a Debian package, unpacked below a folder that stands for the root."""
    root, libraries = scratch / "root", Path("usr/lib") / processor.prefix
    scratch.mkdir(parents=True)
    ran("dpkg-deb", "--extract", package, root)
    given = {"PKG_CONFIG_LIBDIR": str(root / libraries / "pkgconfig"), "PKG_CONFIG_SYSROOT_DIR": str(root)}
    return [
        run_over(processor, "Debian package", journeys, scratch, kind, given, root / libraries)
        for kind in ("static", "shared")
    ]


def over_c(
    processor: Processor, source: Path, journeys: Path, scratch: Path, is_tested: bool, level: str = "-O2"
) -> list[Played]:
    """The runner over the C source, with tests of bounds or without."""
    folder = scratch / ("tested" if is_tested else "untested")
    shutil.copytree(source, folder, ignore=shutil.ignore_patterns("journeys.packed"))
    program = "run_file" if is_tested else "run_file.untested"
    flags = " ".join([level, *processor.options])
    way = f"C, {processor.name}, {processor.bits} bits, {'big' if processor.is_big_endian else 'little'}-endian, "
    way += "bounds tested" if is_tested else "bounds untested"
    ran("make", "--silent", "-C", folder, f"CC={processor.compiler}", f"CFLAGS={flags}", "LDFLAGS=-static", program)
    return [outcome(way, [*emulated(processor), folder / program, journeys])]


def tells_differences(program: Path, altered: list[bytes], scratch: Path) -> Played:
    """Whether the runner tells of each journey that is due otherwise than it should be."""
    passed = []
    for count, packed in enumerate(altered):
        file = scratch / f"altered-{count}"
        file.write_bytes(packed)
        found = outcome("", [program, file])
        if found.is_same or not found.told.startswith("differs: "):
            passed.append(str(count))
    told = f"passes {', '.join(passed)}" if passed else "told of each"
    return Played(f"the runner over {len(altered)} journeys that are due otherwise", told, not passed and bool(altered))


def over_own_c(source: Path, journeys: Path, altered: list[bytes], scratch: Path, level: str = "-O2") -> list[Played]:
    """The runner over the C source on this machine, also over journeys of each of which it must tell a difference."""
    found = over_c(X86_64, source, journeys, scratch, True, level)
    return [*found, tells_differences(scratch / "tested" / "run_file", altered, scratch)]


def byte_by_byte(source: Path, journeys: Path, scratch: Path) -> list[Played]:
    """The C source as a compiler takes it that doesn't tell the host's order of bytes."""
    folder = scratch / "byte-by-byte"
    shutil.copytree(source, folder, ignore=shutil.ignore_patterns("journeys.packed"))
    ran("make", "--silent", "-C", folder, "CC=gcc", "CPPFLAGS=-DSDM_BYTE_BY_BYTE", "run_file")
    return [outcome("C, x86_64, byte by byte, bounds tested", [folder / "run_file", journeys])]


def sanitized(source: Path, journeys: Path, scratch: Path) -> list[Played]:
    """The runner over the C source with gcc's sanitizers, and with memories that are too small for the first journey:
    its opening must then be refused for memory, and nothing worse."""
    folder = scratch / "sanitized"
    shutil.copytree(source, folder, ignore=shutil.ignore_patterns("journeys.packed"))
    words = ["make", "--silent", "-C", str(folder), "CC=gcc", f"CFLAGS={SANITIZERS}", "run_file"]
    ran(*words)
    found = [outcome("C, x86_64, sanitizers", [folder / "run_file", journeys])]
    for pages in TOO_FEW_PAGES:
        for made in ("host_array.o", "run_file"):
            (folder / made).unlink()
        ran(*words, f"CPPFLAGS=-DSDM_MEMORY_BYTES={pages * PAGE_BYTES}")
        told = outcome("", [folder / "run_file", journeys]).told
        is_refused = told.startswith("differs: ") and told.endswith(NO_MEMORY)
        found.append(
            Played(f"C, x86_64, sanitizers, {pages} pages", "refused for memory" if is_refused else told, is_refused)
        )
    return found


def on_bare_arm(source: Path, scratch: Path) -> list[Played]:
    """The runner on a bare 32-bit ARM, over the journeys that are packed as C."""
    folder = scratch / "bare"
    shutil.copytree(source, folder, ignore=shutil.ignore_patterns("journeys.packed"))
    ran("make", "--silent", "-C", folder, "CC=arm-linux-gnueabihf-gcc", "arm.elf")
    machine: list[str | Path] = [
        "qemu-system-arm",
        "-M",
        "virt",
        "-cpu",
        "cortex-a15",
        "-nic",
        "none",
        "-nographic",
        "-semihosting",
    ]
    words = [*machine, "-kernel", folder / "arm.elf"]
    return [outcome("C, bare ARM, 32 bits, bounds tested", words)]


def heap(scratch: Path) -> list[Played]:
    """The heap of the module on this machine, in a memory that is soon full."""
    scratch.mkdir(parents=True)
    sources = [TOP / "c" / "heap_try.c", TOP / "c" / "module" / "heap_module.c"]
    memory = ["-include", str(TOP / "c" / "module" / "memory_of_host.h")]
    ran("gcc", *WARNED, f"-I{TOP / 'c'}", *memory, "-o", scratch / "heap_try", *sources)
    return [outcome("heap of the module", [scratch / "heap_try"])]


def by_cmake(processor: Processor, prefix: Path, scratch: Path) -> list[Played]:
    """A program of the prefix, by what CMake finds there, over README's example."""
    words = ["-DCMAKE_SYSTEM_NAME=Linux", f"-DCMAKE_SYSTEM_PROCESSOR={processor.name}"]
    words += [f"-DCMAKE_C_COMPILER={processor.compiler}", f"-DCMAKE_PREFIX_PATH={prefix}"]
    ran("cmake", "-S", prefix / "share" / "sdm" / "c", "-B", scratch, *words)
    ran("cmake", "--build", scratch)
    example, found = TOP / "examples" / "approach", []
    for name in ("replay", "replay-static"):
        command: list[str | Path] = [*emulated(processor), scratch / name, "run"]
        with (example / "input").open("rb") as given:
            done = subprocess.run(command, stdin=given, capture_output=True, timeout=PATIENCE, check=False)
        is_same = done.stdout == (example / "rows").read_bytes()
        found.append(Played(f"CMake, {processor.name}, {name}", "README's rows" if is_same else "other rows", is_same))
    return found
