"""Which program, and which libraries for C, the scripts and tools take, and how these get the marks that say from which
sources they were built.

    scripts/house program                   prints its path; fails where it isn't of these sources
    scripts/house program --program PATH    prints the path of another one, which is taken as it is
    scripts/house program tell              prints its mark too: checksums, toolchain, and what built it
    scripts/house program sources           prints the checksum of the sources
    scripts/house program mark SOURCES      marks what `rt ci` built, if the sources still have the checksum that they
                                            had before
    scripts/house program build             proves and builds it by `rt run`, where that wasn't done, and marks it

    scripts/house library          prints its path; fails where it isn't of these sources
    scripts/house library tell     prints its mark too
    scripts/house library build    proves and builds it, and marks it: by `rt lib`, or, where PROVED_BY_RT_CI is set,
                                   over the libraries below it that `rt ci` proved
    scripts/house library build --for NAME..    builds it for other processors; without a name it tells the names

    scripts/house calls-library [tell|build]    the same for the library of c/sdm_calls.h

A mark shows that the program or library, byte for byte, is the one that a proved build left, and that the sources
were the same before the build, after it, and are now. It doesn't show that nobody changed them in between and put
them back, nor that nobody wrote a mark by hand. Tests, definitions and proofs count as sources, so that what is
marked is also proved by what lies here.
"""
from __future__ import annotations

import argparse
import os
import subprocess
import sys
from collections.abc import Callable
from functools import partial
from pathlib import Path

from sdm.laboratory.cases import text_of
from sdm.laboratory.program import (
    CALLS,
    CRATE,
    LIBRARY,
    PROGRAM,
    TOP,
    Fault,
    Product,
    Result,
    add_program,
    built,
    run,
    sum_of,
    sum_of_sources,
)

TOOLCHAIN = ["rt", "version"]


def stored_run() -> tuple[list[str], bytes, Result]:
    """The words and the input of the crate's stored run, and what is due."""
    due = Result(text_of(CRATE / "stdout", ""), "", int(text_of(CRATE / "status", "0")))
    return text_of(CRATE / "args", "").splitlines(), text_of(CRATE / "stdin", "").encode(), due


def mark(product: Product, before: str, by: str) -> None:
    """Marks what was built from the sources that had a checksum before; a program only where it answers its stored
    run."""
    if sum_of_sources() != before:
        raise Fault(f"The sources changed while the {product.kind} was built, so it isn't marked.")
    if not product.path.is_file():
        raise Fault(f"There is no {product.kind} at {product.path} to mark.")
    if product == PROGRAM:
        words, data, due = stored_run()
        if run(product.path, words, data) != due:
            raise Fault(f"{product.path} doesn't write what crates/sdm/stdout has, so it isn't marked.")
    kit = subprocess.run(TOOLCHAIN, capture_output=True, text=True, check=True).stdout.strip()
    product.mark.write_text(f"sources {before}\n{product.kind} {sum_of(product.path)}\nkit {kit}\nby {by}, with LLVM\n")


def ended(words: list[str], crate: str, data: bytes = b"") -> int:
    """The exit status of a command of the toolchain in the folder of a crate, by LLVM and no other compiler. What it
    prints goes to standard error."""
    environment = {name: value for name, value in os.environ.items() if name != "RT_BACKEND"}
    folder = TOP / "crates" / crate
    return subprocess.run(words, cwd=folder, env=environment, input=data, stdout=sys.stderr).returncode


def build_program() -> None:
    """Proves and builds the program over what earlier checks kept, and marks it."""
    before, (words, data, _) = sum_of_sources(), stored_run()
    PROGRAM.mark.unlink(missing_ok=True)
    if ended(["rt", "run", "--", *words], "sdm", data):
        raise Fault("`rt run` failed, so no program was built.")
    mark(PROGRAM, before, "rt run")


def words_over_proved(crate: str, into: Path) -> list[str]:
    """The command with which `rt lib` ends in a crate, over the libraries that `rt ci` proved and left. `rt lib` itself
    takes only what `rt check` kept, and where that is nothing it proves each crate below once more."""
    told = subprocess.run(["rt", "doc"], capture_output=True, text=True, check=True).stdout
    kit = Path(told.strip()).parent
    lines = (TOP / "crates.txt").read_text().splitlines()
    line = next(line for line in lines if line.startswith(f"{crate} staticlib:"))
    words = [str(kit / "bin" / "rattle"), "build", "--crate-name", crate, "--crate-type", "staticlib", "src/lib.rt"]
    for name in ["std", *line.partition(":")[2].split()]:
        folder = TOP / "crates" / name / "out" / "rlib" if name.startswith("sdm_") else kit / "rlibs"
        words += ["--extern", f"{name}={folder / name}.rlib"]
    for folder in [kit / "rlibs", *sorted(TOP.glob("crates/*/out/rlib"))]:
        words += ["-L", f"dependency={folder}"]
    words += ["--links", f"{crate}=", "--antt-project", str(kit / "rattle" / "logic" / "antt-project.json")]
    words += ["--logic-built", str(kit / "logic_built"), "--toolchain", str(kit / "toolchain")]
    return [*words, "--jobs", str(os.cpu_count()), "-o", str(into)]


def build_library(product: Product) -> None:
    """Proves and builds a library for C, and marks it."""
    before, is_proved_below = sum_of_sources(), bool(os.environ.get("PROVED_BY_RT_CI"))
    crate = product.path.parents[1].name
    product.mark.unlink(missing_ok=True)
    words = words_over_proved(crate, product.path) if is_proved_below else ["rt", "lib"]
    product.path.parent.mkdir(exist_ok=True)
    if ended(words, crate):
        raise Fault(f"The {product.kind} isn't proved and built.")
    mark(product, before, "rattle build over proved libraries" if is_proved_below else "rt lib")


def must_hold(product: Product) -> None:
    """A fault where the mark of what was built doesn't hold."""
    fault = product.fault()
    if fault:
        raise Fault(f"{fault}: .ci/run or `scripts/house {product.kind} build` builds it.")


def tell(product: Product, with_mark: bool) -> None:
    """Prints the path of what was built, and its mark; a fault where the mark doesn't hold."""
    must_hold(product)
    print(product.path)
    if with_mark:
        print(product.mark.read_text(), end="")


def of_program(words: list[str]) -> None:
    """What scripts/house program does for its words, of which there are none or two."""
    match words:
        case ["sources"]:
            print(sum_of_sources())
            return
        case ["--program", path]:
            print(built(Path(path)))
            return
        case ["mark", before]:
            mark(PROGRAM, before, "rt ci")
        case ["build"]:
            build_program()
    tell(PROGRAM, bool(words))


def of_library(product: Product, words: list[str]) -> None:
    """What scripts/house library or scripts/house calls-library does for its words."""
    if words == ["build"]:
        build_library(product)
    tell(product, bool(words))


FORMS: dict[str, tuple[list[list[str]], list[str], Callable[[list[str]], None]]] = {
    "program": ([[], ["tell"], ["sources"], ["build"]], ["--program", "mark"], of_program),
    "library": ([[], ["tell"], ["build"]], [], partial(of_library, LIBRARY)),
    "calls-library": ([[], ["tell"], ["build"]], [], partial(of_library, CALLS)),
}


def main(args: list[str]) -> int:
    """The exit status of `scripts/house program`, `library` or `calls-library`, by the first word, for the others."""
    kind, *words = args
    if args[:3] == ["library", "build", "--for"]:
        from scripts.processors import build  # which takes the library that is built here

        return build.build_for(args[3:])
    whole, with_one_more, does = FORMS[kind]
    if words not in whole and not (len(words) == 2 and words[0] in with_one_more):
        print(__doc__.strip(), file=sys.stderr)
        return 2
    try:
        does(words)
    except Fault as why:
        print(f"{kind}: {why}", file=sys.stderr)
        return 1
    return 0


def program_of(check: str, words: list[str]) -> Path:
    """The program that a check takes, which has no words but `--program PATH`."""
    parser = argparse.ArgumentParser(prog=f"scripts/house check {check}")
    add_program(parser)
    return built(parser.parse_args(words).program)


def library_of(words: list[str]) -> Path:
    """The library for C that a check takes: the one that its words name, else the one that was built and marked."""
    if not words:
        must_hold(LIBRARY)
    return Path(words[0]).resolve() if words else LIBRARY.path
