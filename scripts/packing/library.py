"""libsdm.a and libsdm.so: the library that the crate sdm_c is built to, with the texts of statuses and a heap over
malloc, which a program that defines a heap of its own leaves out. The shared library has the calls of c/sdm.h, each
with the version of the layout, and shows nothing else. The same of libsdm-calls.a and libsdm-calls.so, of the crate
sdm_calls with c/sdm_calls.c, for the calls of c/sdm_calls.h."""
from __future__ import annotations

import re
from dataclasses import dataclass
from pathlib import Path

from scripts.c import header
from scripts.packing.facts import Contents, Release, ran

COMPILE = ["-std=c11", "-O2", "-fPIC"]


@dataclass(frozen=True)
class Tools:
    """The compiler and the tools for binaries: this machine's, or those for another processor, whose names begin
    otherwise."""

    prefix: str = ""

    @property
    def compiler(self) -> str:
        return f"{self.prefix}gcc" if self.prefix else "cc"

    def named(self, tool: str) -> str:
        return self.prefix + tool


OWN = Tools()


@dataclass(frozen=True)
class Made:
    """A library of a release: its name without lib, the crate's, what it shows and under which version, and what of c/
    is in it: in one object with the crate's code, and each by itself, so that a program may have its own."""

    name: str
    archive: Path
    calls: tuple[str, ...]
    node: str  # of the versions of symbols
    layout: int
    within: tuple[str, ...]
    beside: tuple[str, ...]

    @property
    def shared_name(self) -> str:
        return f"lib{self.name}.so.{self.layout}"


def of_supervisor(release: Release, contents: Contents) -> Made:
    """The library of c/sdm.h."""
    beside = ("sdm_text", "heap_malloc")
    return Made("sdm", contents.library, release.calls, "SDM", release.layout, (), beside)


def of_commands(contents: Contents, archive: Path) -> Made:
    """The library of c/sdm_calls.h."""
    text = (contents.files / "c" / "sdm_calls.h").read_text()
    calls = tuple(call.name for call in header.calls(text))
    layout = int(re.findall(r"^#define SDM_CALLS_LAYOUT (\d+)u$", text, re.M)[0])
    return Made("sdm-calls", archive, calls, "SDM_CALLS", layout, ("sdm_calls",), ("heap_malloc",))


def version_script(made: Made) -> str:
    """What the linker shows of the shared library, and under which version."""
    shown = "".join(f"        {call};\n" for call in made.calls)
    return f"{made.node}_{made.layout} {{\n    global:\n{shown}    local:\n        *;\n}};\n"


def objects(names: tuple[str, ...], contents: Contents, scratch: Path, tools: Tools) -> list[Path]:
    """Files of c/, compiled."""
    found = []
    for name in names:
        found.append(scratch / f"{name}.o")
        ran(tools.compiler, *COMPILE, "-c", "-o", found[-1], f"c/{name}.c", into=contents.files)
    return found


def make_static(made: Made, contents: Contents, scratch: Path, into: Path, tools: Tools = OWN) -> None:
    """Writes the static library: the crate's code as one object that shows the calls alone and asks for a heap, and the
    others each by itself, so that a program's own heap takes the place of that over malloc."""
    whole, keep = scratch / f"{made.name}.o", scratch / "keep"
    keep.write_text("".join(f"{call}\n" for call in made.calls))
    within = objects(made.within, contents, scratch, tools)
    ran(tools.named("ld"), "-r", "-o", whole, "--whole-archive", made.archive, "--no-whole-archive", *within)
    ran(tools.named("objcopy"), f"--keep-global-symbols={keep}", "--strip-unneeded", whole)
    beside = objects(made.beside, contents, scratch, tools)
    ran(tools.named("ar"), "rcsD", into / f"lib{made.name}.a", whole, *beside)


def make_shared(made: Made, contents: Contents, scratch: Path, into: Path, tools: Tools = OWN) -> None:
    """Writes the shared library under the name of its layout, and a link to it under the name without."""
    script = scratch / f"{made.name}.map"
    script.write_text(version_script(made))
    ran(
        tools.compiler,
        "-shared",
        "-nostartfiles",
        "-o",
        into / made.shared_name,
        f"-Wl,-soname,{made.shared_name}",
        f"-Wl,--version-script={script}",
        "-Wl,-z,defs,-z,relro,-z,now,--gc-sections,--strip-all",
        "-static-libgcc",
        "-Wl,--whole-archive",
        made.archive,
        "-Wl,--no-whole-archive",
        *objects(made.within + made.beside, contents, scratch, tools),
    )
    (into / f"lib{made.name}.so").symlink_to(made.shared_name)
