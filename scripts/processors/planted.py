"""Mistakes that are planted in copies of what was built, one at a time: the journeys or the tests must find each.

    scripts/house check processors-all --planted    plants all of them"""
from __future__ import annotations

import re
import shutil
from collections.abc import Iterator
from dataclasses import dataclass
from functools import partial
from pathlib import Path

from scripts.processors import proved, wasm
from scripts.processors.node import in_node, own_tests, typed
from scripts.processors.played import Job, Played, over_c, sanitized
from scripts.processors.targets import PROCESSORS
from scripts.processors.tools import must, ran

JAVASCRIPT, TYPES, C, SANITIZED, HEAP = "JavaScript", "types", "C", "C with sanitizers", "heap"
MODULE = "module"  # the LLVM module's text, before it is compiled for WebAssembly
QUICK = "-O1"

# A sum of two numbers of 128 bits, in LLVM's words, by its halves of 64 bits, and without what the lower halves carry.
LOST_CARRY = r"""\1  %low.a = and i128 \3, 18446744073709551615
  %low.b = and i128 \4, 18446744073709551615
  %low.sum = add i128 %low.a, %low.b
  %low = and i128 %low.sum, 18446744073709551615
  %high.a = sub i128 \3, %low.a
  %high.b = sub i128 \4, %low.b
  %high = add i128 %high.a, %high.b
  \2 = or i128 %high, %low
"""


def sum_in(function: str) -> str:
    """The pattern of the first sum of 128 bits in a function of the LLVM module."""
    return rf'(?m)(^define [^\n]*@"{function}"\((?:.*\n)*?)  (%r\d+) = add i128 (%r\d+), (%r\d+)\n'


@dataclass(frozen=True)
class Mistake:
    """A text of a file, as a pattern that it has, and what is put in its place; in C the processor that finds it."""

    what: str
    kind: str
    file: str
    pattern: str
    new: str
    processor: str = "x86_64"
    at: int = 0  # which of the places that the pattern has


MISTAKES = [
    Mistake(
        "the view of the memory before it grew",
        JAVASCRIPT,
        "sdm.mjs",
        r"if \(this\.#view\.buffer !== buffer\) this\.#view = new DataView\(buffer\);",
        "",
    ),
    Mistake("a handle that isn't freed", JAVASCRIPT, "sdm.mjs", r"  instance\.free\(handle\);\n\}", "}"),
    Mistake("a data part that isn't freed", JAVASCRIPT, "sdm.mjs", r"  instance\.free\(at\);\n", ""),
    Mistake("a trap that isn't told", JAVASCRIPT, "sdm.mjs", r"this\.#trap = new SdmTrap\(call, cause\);", ""),
    Mistake("a place at 0 taken for none", JAVASCRIPT, "sdm.mjs", r"place\.is_some \? ", "place.mm ? "),
    Mistake("a word that is spelt wrongly taken for absent", JAVASCRIPT, "sdm.mjs", r"length > known", "length < 0"),
    Mistake(
        "a number that is cut off",
        JAVASCRIPT,
        "sdm.mjs",
        r"if \(value < least \|\| value > most\)",
        "if (value !== value)",
    ),
    Mistake(
        "the order of bytes in one struct, in JavaScript",
        JAVASCRIPT,
        "structs.mjs",
        r"setInt32\(at \+ 20, value\.accel_cm_s2, true\)",
        "setInt32(at + 20, value.accel_cm_s2, false)",
    ),
    Mistake(
        "the order of bytes in one struct, in C",
        C,
        "calls.c",
        r"put32\(sdm_module_at\(at \+ 4, 4\), \(u32\)from->est_mm\);",
        "memcpy(sdm_module_at(at + 4, 4), &from->est_mm, 4);",
        "ppc",
    ),
    Mistake("a field that isn't passed", C, "calls.c", r"\(u32\)from->max_mm", "0"),
    Mistake("a data part without its last byte", C, "calls.c", r"data, data_bytes\);", "data, data_bytes - 1);"),
    Mistake(
        "memory.copy the other way",
        C,
        "operations.h",
        r"\(to->data \+ to_at, from->data \+ from_at",
        "(to->data + from_at, to->data + to_at",
    ),
    Mistake("half of a number of 64 bits", C, "operations.h", r"DEFINE_GET\(64, u64\)", "DEFINE_GET(64, u32)"),
    Mistake("a lost carry of 128 bits", MODULE, "module.ll", sum_in("sdm_curve::knots::Knot::at"), LOST_CARRY),
    Mistake(
        "a lost carry of 128 bits in another sum",
        MODULE,
        "module.ll",
        sum_in("sdm_curve::levels::integral_at"),
        LOST_CARRY,
    ),
    Mistake("a place that may be none, typed as one", TYPES, "sdm.d.mts", r"ebi_mm: number \| null", "ebi_mm: number"),
    Mistake("a call without its type", TYPES, "sdm.d.mts", r"  takeOver\(before: Supervisor\): void;\n", ""),
    Mistake(
        "more memory than the host's",
        SANITIZED,
        "instance.c",
        r"mem->max_pages - mem->pages",
        "UINT32_MAX - mem->pages",
    ),
    Mistake(
        "blocks that overlap", HEAP, "heap_module.c", r"sizeof\(struct head\) \+ bytes_of\(kind\)", "bytes_of(kind)"
    ),
    Mistake("a block that moves and loses its end", HEAP, "heap_module.c", r"kept < bytes \? kept : bytes", "kept / 2"),
]


def planted(text: str, mistake: Mistake) -> str:
    """A text with a mistake in it."""
    places = list(re.finditer(mistake.pattern, text))
    must(len(places) > mistake.at, f"{mistake.file} has no place for {mistake.what}")
    place = places[mistake.at]
    return text[: place.start()] + place.expand(mistake.new) + text[place.end() :]


def a_copy(folder: Path, mistake: Mistake, into: Path) -> Path:
    """A copy of a folder with a mistake in it."""
    shutil.copytree(folder, into)
    file = into / mistake.file
    file.write_text(planted(file.read_text(), mistake))
    return into


def in_package(folder: Path, made: Path) -> list[Played]:
    """How a package comes out by its own tests and, where these find nothing, over all journeys."""
    found = own_tests(folder)
    return found if not all(each.is_same for each in found) else in_node(folder, made, "sdm.wasm")


def in_javascript(mistake: Mistake, package: Path, made: Path, scratch: Path) -> list[Played]:
    """How the package with a mistake comes out; it must still be JavaScript."""
    folder = a_copy(package, mistake, scratch)
    ran("node", "--check", folder / mistake.file)
    return in_package(folder, made)


def in_types(mistake: Mistake, package: Path, scratch: Path) -> list[Played]:
    """How the package comes out whose types have a mistake: by a user's file, and by its own tests."""
    folder = a_copy(package, mistake, scratch / "package")
    return [*typed(folder, scratch / "project"), *own_tests(folder)]


def in_c(mistake: Mistake, source: Path, journeys: Path, scratch: Path) -> list[Played]:
    """How the C source with a mistake comes out."""
    folder = a_copy(source, mistake, scratch / "source")
    if mistake.kind == SANITIZED:
        return sanitized(folder, journeys, scratch)
    return over_c(PROCESSORS[mistake.processor], folder, journeys, scratch, True, QUICK)


def in_heap(mistake: Mistake, package: Path, made: Path, scratch: Path) -> list[Played]:
    """How the package comes out over a module whose heap has a mistake."""
    shutil.copytree(package, scratch)
    heap = a_copy(wasm.HEAP.parent, mistake, scratch / "heap") / mistake.file
    wasm.write(proved.MODULE.path, scratch / "sdm-64.wasm", scratch / "sdm.wasm", heap)
    return in_package(scratch, made)


def in_module(mistake: Mistake, package: Path, made: Path, scratch: Path) -> list[Played]:
    """How the package comes out over a module that was compiled with a mistake."""
    shutil.copytree(package, scratch)
    modules = scratch / "sdm-64.wasm", scratch / "sdm.wasm"
    wasm.write(proved.MODULE.path, *modules, changed=lambda text: planted(text, mistake))
    return in_package(scratch, made)


def sought(mistake: Mistake, folders: dict[str, Path], packed: Path, made: Path, scratch: Path) -> list[Played]:
    """How a mistake came out: it is found where one of the ways differs, and what tells it then."""
    package = folders["wasm"] / "sdm"
    if mistake.kind == JAVASCRIPT:
        ways = in_javascript(mistake, package, made, scratch)
    elif mistake.kind == TYPES:
        ways = in_types(mistake, package, scratch)
    elif mistake.kind == MODULE:
        ways = in_module(mistake, package, made, scratch)
    elif mistake.kind == HEAP:
        ways = in_heap(mistake, package, made, scratch)
    else:
        ways = in_c(mistake, folders["c"], packed, scratch)
    found = [f"{each.way}: {each.told}" for each in ways if not each.is_same]
    told = found[0][:160] if found else "not found"
    return [Played(f"planted in {mistake.file}: {mistake.what}", told, bool(found))]


def jobs(folders: dict[str, Path], packed: Path, made: Path, scratch: Path, only: str = "") -> Iterator[Job]:
    """All mistakes that a text is of, each as a job."""
    for count, mistake in enumerate(MISTAKES):
        if only in f"{mistake.kind}: {mistake.what}":
            yield partial(sought, mistake, folders, packed, made, scratch / f"planted-{count}")
