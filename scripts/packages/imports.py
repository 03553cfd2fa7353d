"""Holds which package of python/ may import which: the evidence's `sdm_evidence` stands on the standard library alone,
and its model on no maker; `sdm` reaches the evidence by `sdm.exact` alone, and what a caller of the supervisor uses
doesn't reach it at all. Pip installs no maker. Imports are absolute, and the name of a class or of an alias stands once
in a package.

    scripts/house check imports    fails where a module does otherwise
"""
from __future__ import annotations

import ast
import collections
import sys
from collections.abc import Iterator
from pathlib import Path

import tomllib

from scripts.pages.part import told
from scripts.pages.specs import ROOT

PYTHON = ROOT / "python"
DOOR, MODEL, MAKERS = "sdm.exact", "sdm_evidence.model", "sdm_evidence.makers"
# What a caller of the supervisor uses, and what of other packages it may import.
OF_CALLERS = {f"sdm.{name}" for name in "arrays engine errors library records rows runs sweeps toml_text".split()}
OF_OTHERS = {"numpy", "pandas"}


def module_of(path: Path) -> str:
    """The name of a file's module."""
    parts = path.relative_to(PYTHON).with_suffix("").parts
    return ".".join(parts[:-1] if parts[-1] == "__init__" else parts)


def imported(tree: ast.Module) -> Iterator[tuple[int, str]]:
    """The modules that a text imports or names in a string, each with its line; a relative one begins with a dot."""
    for node in ast.walk(tree):
        match node:
            case ast.Import(names=names):
                yield from ((node.lineno, each.name) for each in names)
            case ast.ImportFrom(module="sdm", names=names, level=0):
                yield from ((node.lineno, f"sdm.{each.name}") for each in names)
            case ast.ImportFrom(module=module, level=level):
                yield node.lineno, "." * level + (module or "")
            case ast.Constant(value=str(text)) if text.startswith(("sdm.", "sdm_evidence.")) and " " not in text:
                yield node.lineno, text


def is_in(module: str, package: str) -> bool:
    """Whether a module is a package or stands in it."""
    return module == package or module.startswith(f"{package}.")


def is_allowed(importer: str, module: str) -> bool:
    """Whether a module may import another one."""
    top = module.split(".")[0]
    if top in sys.stdlib_module_names:
        return True
    if is_in(importer, MODEL):
        return is_in(module, MODEL)
    if is_in(importer, "sdm_evidence"):
        return top == "sdm_evidence"
    if importer in OF_CALLERS:
        return module in OF_CALLERS or top in OF_OTHERS
    if top == "sdm_evidence":
        return importer == DOOR and is_in(module, MODEL)
    return top == "sdm" or top in OF_OTHERS


def names_of(tree: ast.Module) -> Iterator[str]:
    """The classes and aliases of types that a text defines: names in capitals and small letters."""
    for node in tree.body:
        match node:
            case ast.ClassDef(name=name):
                yield name
            case ast.Assign(targets=[ast.Name(id=name)]) if name[0].isupper() and not name.isupper():
                yield name


def faults() -> tuple[int, list[str]]:
    """How many modules there are, and what each does otherwise."""
    found: list[str] = []
    homes: dict[tuple[str, str], list[str]] = collections.defaultdict(list)
    files = sorted(path for package in ("sdm", "sdm_evidence") for path in (PYTHON / package).rglob("*.py"))
    for path in files:
        importer, tree = module_of(path), ast.parse(path.read_text())
        where = path.relative_to(ROOT)
        for line, module in imported(tree):
            if module.startswith("."):
                found.append(f"{where}:{line}: a relative import: {module}")
            elif not is_allowed(importer, module):
                found.append(f"{where}:{line}: {importer} may not import {module}")
        for name in names_of(tree):
            homes[importer.split(".")[0], name].append(importer)
    packed = tomllib.loads((PYTHON / "pyproject.toml").read_text())["tool"]["setuptools"]["packages"]
    due = sorted({module_of(path.parent / "__init__.py") for path in files} - {MAKERS})
    if sorted(packed) != due:
        found.append(f"python/pyproject.toml: packages are {packed}, and not {due}, all but the makers")
    doubles = [f"{name} is defined in {' and in '.join(those)}" for (_, name), those in homes.items() if len(those) > 1]
    return len(files), found + doubles


def main(_: list[str]) -> int:
    return told("imports", *faults())
