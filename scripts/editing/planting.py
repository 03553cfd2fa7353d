"""Plants edits into a copy of a crate.

An edit changes its function where that stands, if no other edit of the batch is of that function or of one that calls
it. Else it is planted in a copy of the function, which stands right below it under a name of its own, with the same
contract, attributes and proof files. So one check tries any number of edits, of one function too, and no function that
another calls is changed. Where a copied function has proof files, which name it, a copy as it is stands beside them,
and must be proved. An edit of a trait's method, or of what isn't a function, always changes the text where it stands.

No edit needs the proofs of the functions that it calls, whose contracts alone its function sees. `rt ci` proves these;
here a hole stands in place of the proof of each function that isn't asked for."""
from __future__ import annotations

import re
import shutil
from dataclasses import dataclass
from pathlib import Path

from scripts.editing.edits import Edit
from scripts.editing.functions import Function, functions_in

HOLE = """use {module} as stated

pub {name}_spec : {{M : Type 1}} → stated.statement M
{name}_spec = ?
"""


@dataclass(frozen=True)
class Plant:
    """A copy of a function with an edit, or as the function is."""

    function: Function
    name: str  # of the copy
    edit: Edit | None = None

    @property
    def path(self) -> str:
        """The copy's path below the crate, as the prover names it."""
        return "::".join([*self.function.path.split("::")[:-1], self.name])

    def text(self) -> str:
        """The function's text with the edit, under the copy's name."""
        text = edited(self.edit, self.function) if self.edit else whole(self.function)
        return re.sub(rf"\bfn {self.function.name}\b", f"fn {self.name}", text, count=1)


def edited(edit: Edit, function: Function) -> str:
    """A function's text with an edit; nothing where the edit changes something else, too."""
    text = whole(function)
    for change in edit.changes:
        if change.file != function.file or text.count(change.old) != 1:
            return ""
        text = text.replace(change.old, change.new)
    return text


def is_plantable(edit: Edit, function: Function) -> bool:
    """Whether an edit changes this function alone, which is no trait's method."""
    return not function.trait and bool(edited(edit, function))


def start_of(function: Function, text: str) -> int:
    """Where a function's comment and attributes begin: the lines above it down from an empty one, or an impl's head."""
    start = text.rfind("\n", 0, function.contract.span[0]) + 1
    while start:
        above = text.rfind("\n", 0, start - 1) + 1
        line = text[above : start - 1].strip()
        if not line or line.endswith(("{", "}", ";")):
            break
        start = above
    return start


def whole(function: Function) -> str:
    """A function's text with its attributes."""
    text: str = function.contract.path.read_text()
    return text[start_of(function, text) : function.contract.span[1]]


def plant(folder: Path, plants: list[Plant]) -> None:
    """Puts the copies of functions into a copy of their crate, each below the function that it is of."""
    ends: dict[str, int] = {each.path: each.contract.span[1] for each in functions_in(folder)}
    for each in sorted(plants, key=lambda each: -ends[each.function.path]):
        path, end = folder / each.function.file, ends[each.function.path]
        text = path.read_text()
        path.write_text(f"{text[:end]}\n\n{each.text()}{text[end:]}")
        plant_proof(folder, each)


def change(folder: Path, function: Function, edit: Edit) -> None:
    """Puts an edit into a function of a copy of its crate, where the function stands."""
    path = folder / function.file
    path.write_text(path.read_text().replace(whole(function), edited(edit, function)))


def leave_out_proofs(folder: Path, crate: str, asked: set[str]) -> None:
    """Puts a hole in place of the proof of each function of a copy of a crate that isn't asked for."""
    for each in functions_in(folder):
        if each.path in asked or not each.has_body():
            continue
        place = proof_of(folder, each.path)
        for file in place.glob("*.antt"):
            file.unlink()
        place.mkdir(parents=True, exist_ok=True)
        module = ".".join(["Rattle", crate, "proofs", *each.path.split("::"), "Statement"])
        (place / "Proof.antt").write_text(HOLE.format(module=module, name=each.name))


def proof_of(folder: Path, path: str) -> Path:
    """Where the proof files of a function stand, if it has any."""
    return folder.joinpath("proofs", *path.split("::"))


def plant_proof(folder: Path, plant: Plant) -> None:
    """Copies the proof files of a function for its copy."""
    own, copy = proof_of(folder, plant.function.path), proof_of(folder, plant.path)
    if not own.is_dir():
        return
    shutil.copytree(own, copy)
    names = re.compile(rf"\b((?:proofs|contracts)\.(?:\w+\.)*){plant.function.name}\b(?=\.\w)")
    for file in copy.glob("*.antt"):
        text = names.sub(rf"\1{plant.name}", file.read_text())
        file.write_text(text.replace(f"{plant.function.name}_spec", f"{plant.name}_spec"))
