"""An archive as a user of Linux wants it: below a prefix the libraries, the header, what pkg-config and CMake read, and
the programs of c/ to begin with; and as a Debian package, which may lie beside those of other processors."""
from __future__ import annotations

import hashlib
import re
import shutil
import tempfile
from pathlib import Path

from scripts.packing import library, tree
from scripts.packing.facts import Contents, Release, filled
from scripts.packing.facts import ran as packed_by
from scripts.processors.targets import Machine
from scripts.processors.tools import must, ran
from sdm.laboratory.program import TOP

EXAMPLES = [
    "CMakeLists.txt",
    "heap.h",
    "heap_arena.c",
    "heap_arena.h",
    "journey.c",
    "journey.h",
    "onboard.c",
    "replay.c",
]
VERSION = re.compile(r"\bGLIBC_(\d+)\.(\d+)\b")


def tools_for(machine: Machine) -> library.Tools:
    """The compiler and the tools for binaries."""
    return library.Tools(f"{machine.processor.prefix}-")


def write_tree(release: Release, machine: Machine, archive: Path, prefix: Path, root: str, at: tuple[str, str]) -> None:
    """Writes what a machine has below a new prefix, whose name pkg-config tells; libraries and headers each in a
    folder."""
    libraries, headers = at
    prefix.mkdir(parents=True)
    with tempfile.TemporaryDirectory() as name:
        contents = Contents(Path("none"), archive, TOP, Path("none"))
        more = (root, libraries, Path(name), tools_for(machine), headers)
        tree.write_libraries(release, contents, prefix, *more)
    (prefix / headers).mkdir(parents=True)
    for name in ("sdm.h", "sdm.hpp"):
        shutil.copyfile(TOP / "c" / name, prefix / headers / name)


def write_prefix(release: Release, machine: Machine, archive: Path, prefix: Path, told: str) -> None:
    """Writes what a machine has to a place where it is unpacked, with a file that says from what it was built."""
    shutil.rmtree(prefix, ignore_errors=True)
    write_tree(release, machine, archive, prefix, "${pcfiledir}/../..", ("lib", "include"))
    examples = prefix / "share" / "sdm" / "c"
    examples.mkdir(parents=True)
    for name in EXAMPLES:
        shutil.copyfile(TOP / "c" / name, examples / name)
    (prefix / "BUILD").write_text(told)


def libc_of(machine: Machine, shared: Path) -> str:
    """The least version of the C library that a shared library asks for."""
    told = ran(f"{machine.processor.prefix}-objdump", "--dynamic-syms", shared).decode()
    found = [(int(major), int(minor)) for major, minor in VERSION.findall(told)]
    must(bool(found), f"{shared.name} asks for no C library")
    return ".".join(map(str, max(found)))


def write_package(release: Release, machine: Machine, archive: Path, into: Path, told: str) -> Path:
    """Writes the Debian package into a folder; its path. Its headers lie where the compiler for the machine looks, so
    that it doesn't meet those of another architecture."""
    gnu = machine.processor.prefix
    with tempfile.TemporaryDirectory() as name:
        root = Path(name) / "root"
        usr, control = root / "usr", root / "DEBIAN"
        write_tree(release, machine, archive, usr, "/usr", (f"lib/{gnu}", f"include/{gnu}"))
        documents = usr / "share" / "doc" / "libsdm-dev"
        documents.mkdir(parents=True)
        (documents / f"BUILD.{machine.architecture}").write_text(told)
        (documents / "copyright").write_text(filled("copyright", author=release.author))
        control.mkdir()
        libc = libc_of(machine, usr / "lib" / gnu / release.shared_name)
        facts = {
            "version": release.version,
            "architecture": machine.architecture,
            "libc": libc,
            "author": release.author,
        }
        (control / "control").write_text(filled("libsdm-dev.control", **facts))
        (control / "shlibs").write_text(f"libsdm {release.layout} libsdm-dev (>= {release.version})\n")
        (control / "triggers").write_text("activate-noawait ldconfig\n")
        files = sorted(path for path in usr.rglob("*") if path.is_file() and not path.is_symlink())
        sums = [
            f"{hashlib.md5(path.read_bytes()).hexdigest()}  {path.relative_to(root).as_posix()}\n" for path in files
        ]
        (control / "md5sums").write_text("".join(sums))
        tree.settle(release, root)
        packed = into / f"libsdm-dev_{release.version}_{machine.architecture}.deb"
        words = ["--build", "--root-owner-group", "-Zxz", "--threads-max=1", str(root), str(packed)]
        packed_by("dpkg-deb", *words, epoch=release.epoch)
    return packed


def must_be_of(machine: Machine, prefix: Path) -> None:
    """A fault where a library isn't for the machine."""
    told = ran(f"{machine.processor.prefix}-objdump", "--file-headers", prefix / "lib" / "libsdm.a").decode()
    kind = machine.processor.name.replace("riscv64", "littleriscv")
    must(
        f"elf64-{'littleaarch64' if kind == 'aarch64' else kind}" in told,
        f"libsdm.a isn't for {machine.processor.name}",
    )
