"""What `scripts/house` can do: the checks with their groups, minutes and purposes; what writes, shows and tries."""
from __future__ import annotations

import subprocess
from collections.abc import Callable
from dataclasses import dataclass
from importlib import import_module
from pathlib import Path
from typing import Literal

from sdm.laboratory.program import TOP

Group = Literal["before", "after", "elsewhere"]
GROUPS: dict[Group, str] = {
    "before": "which need no built program",
    "after": "over the built program and library",
    "elsewhere": "which the gate doesn't run",
}


@dataclass(frozen=True)
class Part:
    """Something that is run: its name, what does it, what it is for, and how long it takes (None: not measured)."""

    name: str
    does: str  # a module with a function `main`, and words for it; or a file of scripts/ in bash
    what: str
    minutes: float | None = None  # of processor time

    def run(self, words: list[str]) -> int:
        """Its exit status for words."""
        first, *own = self.does.split()
        if "/" in first:
            return subprocess.run([TOP / "scripts" / first, *own, *words]).returncode
        main: Callable[[list[str]], int] = import_module(f"scripts.{first}").main
        return main([*own, *words])

    def line(self) -> str:
        """Its line in the list."""
        minutes = "" if self.minutes is None else f"{self.minutes:.2f}"
        return f"  {self.name:14}{minutes:>5}  {self.what}"


# fmt: off
CHECKS: dict[Group, list[Part]] = {
    "before": [
        Part("believed", "pages.believed check", "the tables of docs/BELIEVED.md are what is believed", 0.04),
        Part("clauses", "pages.clauses check", "the index by clause of docs/SAFETY.md", 0.0),
        Part("crates", "pages.crates check", "the table of crates of docs/ARCHITECTURE.md", 0.0),
        Part("definitions", "pages.definitions check", "each definition has a source and a row in its data", 0.03),
        Part("imports", "packages.imports", "which package of python/ imports which; names stand once", 0.01),
        Part("interface", "c.interface", "c/sdm.h, its source and the binding for Ada say the same", 0.0),
        Part("laboratory", "packages.tests laboratory", "the tools of tools/; vectors/DIGESTS", 0.56),
        Part("links", "pages.links", "links lead somewhere; what pages show is the repository's", 0.01),
        Part("manual", "pages.manual check", "the manual pages and the texts of help and version", 0.0),
        Part("pictures", "pages.pictures check", "the pictures of examples/ are as drawn now", 0.04),
        Part("plot", "packages.tests pictures", "tools/plot", 0.07),
        Part("python", "packages.lint", "black, flake8, mypy and shellcheck find nothing", 0.6),
        Part("questions", "pages.questions", "the pages answer what each kind of reader asks"),
        Part("scripts", "packages.tests scripts", "the checks find the faults that are planted for them"),
        Part("style", "pages.style", "words, lengths, versions and dates of pages; marks of conflicts", 0.01),
        Part("traces", "pages.traces check", "docs/TRACES.md: what shows each sentence of README's promise", 0.01),
    ],
    "after": [
        Part("c", "c/check", "the static library, called from C, C++ and Ada"),
        Part("calls", "c/check-calls", "each command as a call, from C and Python"),
        Part("library", "c.shared", "the Python package over the shared library"),
        Part("bounds", "bounding.bounds check", "the bounds of each call from C, by the machine code"),
        Part("rides", "c.rides", "random rides keep the promises, and find planted faults"),
        Part("processors", "processors.check", "the library on 64-bit ARM, as WebAssembly and as C"),
        Part("certificates", "product.certificates", "`check` says yes to what `certify` writes"),
        Part("compilers", "product.compilers", "the builds by both compilers write the same"),
        Part("live", "product.live", "the command `live`"),
        Part("model", "product.model", "the program writes what the model does"),
        Part("refused", "product.refused", "an early bound isn't taken for a late one"),
        Part("tour", "product.tour", "the commands of docs/TOUR.md write what the page shows"),
        Part("upgrade", "product.upgrade", "`upgrade` keeps data and rows"),
        Part("worked", "product.worked", "runs that were worked by hand"),
        Part("trials", "tries.definitions", "a sample of wrong definitions: the cases that they name refuse them"),
        Part("examples", "product.examples", "the program over each folder of examples/"),
        Part("edits", "editing.check", "each edit is refused by the goal that its file names", 47.4),
    ],
    "elsewhere": [
        Part("processors-all", "processors.check --all", "the library on each processor, in browsers, by npm"),
        Part("release", "packing/check-release", "a release in a clean Debian"),
    ],
}
WRITERS = [
    Part("believed", "pages.believed write", "docs/BELIEVED.md"),
    Part("bounds", "bounding.bounds write", "the bounds in docs/"),
    Part("clauses", "pages.clauses write", "the index of docs/SAFETY.md"),
    Part("crates", "pages.crates write", "the table of docs/ARCHITECTURE.md"),
    Part("definitions", "pages.definitions write", "docs/definitions.csv, docs/definitions.html, docs/DEFINITIONS.md"),
    Part("manual", "pages.manual write", "docs/sdm.1, docs/sdm.h.3, the texts of help and version"),
    Part("pictures", "pages.pictures write", "the pictures of examples/"),
    Part("traces", "pages.traces write", "docs/TRACES.md"),
]
SHOWN = [
    Part("believed", "pages.believed", "the files to believe; `of CLAIM` those of a claim"),
    Part("bounds", "bounding.bounds", "the bounds of each call; `show CALL`, `loops`"),
    Part("clauses", "pages.clauses", "the index by clause"),
    Part("crates", "pages.crates", "the table of crates"),
    Part("lines", "pages.lines", "the lines of each crate, and how many more than in a commit"),
    Part("manual", "pages.manual", "`help`: the text of `sdm help`"),
    Part("processors", "processors.times", "what a reading takes on other processors, and their stacks"),
    Part("traces", "pages.traces", "what shows each sentence of README's promise"),
    Part("words", "pages.style words", "the words by hand of each page, and of all"),
]
TRIES = [
    Part("bounds", "tries.bounds", "the bounds against painted stacks and counted instructions"),
    Part("browsed", "tries.browsed", "docs/definitions.html in a browser"),
    Part("definitions", "tries.definitions", "wrong definitions are refused by the cases that their files name"),
    Part("diagnose", "tries/diagnose", "how often tools/diagnose names what was planted in recordings"),
    Part("faults", "tries.faults", "each call of the program to the system fails in turn"),
    Part("hosts", "tries.hosts", "a sweep and a campaign on Dask over two hosts, a sweep on MPI"),
    Part("inputs", "tries.inputs", "a hundred thousand random inputs"),
    Part("report", "tries.report", "the pages of tools/report in a browser"),
    Part("slurm", "tries/slurm", "the recipe for Slurm of tools/README"),
]
# fmt: on
OTHERS = [
    Part("program", "product.marks program", "the program that is taken: its path; tell, sources, mark, build"),
    Part("library", "product.marks library", "the library for C that is taken: its path; tell, build, build --for"),
    Part("calls-library", "product.marks calls-library", "the library of c/sdm_calls.h: its path; tell, build"),
    Part("release", "packing.release", "packs a release into dist/"),
]
MODULES = Path(__file__).resolve().parent
