"""Whether vectors/ tells a misreading: the model with one line changed is run over the vectors until one comes out otherwise.

    vectors/mutants              prints for each misreading a vector that finds it; fails where none does
    vectors/mutants TEXT         those alone whose module or text has TEXT in it
    vectors/mutants write        writes the table to vectors/MUTANTS.md too

It takes some minutes on one processor, so it is no part of the gate.
"""

import importlib.abc
import importlib.util
import os
import resource
import subprocess
import sys
from pathlib import Path

VECTORS = Path(__file__).resolve().parents[1]
MODEL = VECTORS.parent / "python" / "sdm_evidence" / "model"

from sdm.laboratory.cases import cases_under, difference
from sdm.laboratory.program import Result
from maker.misreadings import MISREADINGS

PATIENCE = 20  # s of the processor; a misread walk may never end
# Which groups are tried first for a misreading of a module: an order, so that it is sooner found.
FIRST = {
    "speeds": ["ceiling", "targets"], "decelerations": ["decelerations", "openings"], "curves": ["curves"],
    "limits": ["times", "targets"], "release": ["calculated", "release"], "triggers": ["commands", "targets", "release"], "rows": ["targets", "release"],
    "units": ["decelerations"], "journey": ["records", "calculated", "openings", "commands"], "records": ["texts", "records"],
    "data": ["data", "upgrade"],
    "display": ["display"], "drive": ["drive"], "certificates": ["certify", "check"], "checker": ["check"], "flat": ["flat"],
    "words": ["upgrade", "drive", "certify", "words"],
}
HEAD = """# Misreadings that the vectors find

Written by `vectors/mutants write`. Each line is a change of one line of `python/sdm_evidence/model`: the module, what stands there, what
was put in its place, and a vector that comes out otherwise. [README.md](README.md#misreadings) tells what that shows.

| No. | Module | Stands there | Misread | Found by |
|---|---|---|---|---|
"""


class Misread(importlib.abc.MetaPathFinder, importlib.abc.Loader):
    """Imports the model from the texts of its modules."""

    def __init__(self, codes):
        self.codes = codes

    def find_spec(self, name, path=None, target=None):
        return importlib.util.spec_from_loader(name, self, is_package=name == "sdm_evidence.model") if name in self.codes else None

    def exec_module(self, module):
        exec(self.codes[module.__name__], module.__dict__)


def texts_of_model():
    """The texts of the model's modules, by their names."""
    return {path.stem: path.read_text() for path in sorted(MODEL.glob("*.py"))}


def compiled(name, text):
    return {"sdm_evidence.model" if name == "__init__" else f"sdm_evidence.model.{name}": compile(text, f"model/{name}.py", "exec")}


def first_other(codes, cases):
    """The first case that a model of these modules has otherwise."""
    sys.meta_path.insert(0, Misread(codes))
    from sdm_evidence.model.words import collect
    for case in cases:
        try:
            same = not difference(("due", "misread"), case.due, Result(*collect(case.words, case.data)), case.words)
        except Exception:
            same = False
        if not same:
            return case.name.removeprefix("vectors/")
    return "**none**"


def found_by(codes, cases):
    """The same in a process of its own, which may fail to end."""
    out, into = os.pipe()
    child = os.fork()
    if child == 0:
        resource.setrlimit(resource.RLIMIT_CPU, (PATIENCE, PATIENCE))
        os.write(into, first_other(codes, cases).encode())
        os._exit(0)
    os.close(into)
    name = os.read(out, 1000).decode()
    os.close(out)
    os.waitpid(child, 0)
    return name or "it doesn't end"


def code(text):
    return "`" + " ".join(text.split()).replace("|", "\\|").replace("`", "'") + "`" if text.split() else "nothing"


def lines_of(wanted):
    """The table's lines for the misreadings with a text in them."""
    texts, cases = texts_of_model(), cases_under(VECTORS)
    codes = {name: code for module, text in texts.items() for name, code in compiled(module, text).items()}
    for number, (module, text, misread) in enumerate(MISREADINGS, 1):
        if not any(wanted in each for each in (module, text, misread)):
            continue
        if text not in texts[module]:
            raise SystemExit(f"mutants: python/sdm_evidence/model/{module}.py has no such text any more: {text}")
        other = compiled(module, texts[module].replace(text, misread, 1))
        order = sorted(cases, key=lambda case: case.name.split("/")[1] not in FIRST.get(module, []))
        name = found_by(codes | other, order)
        print(f"{name:40} {module}: {code(text)} -> {code(misread)}", flush=True)
        yield f"| {number} | {module} | {code(text)} | {code(misread)} | {name} |"


def main(words):
    if len(words) > 1 or words[:1] == ["--help"]:
        print(__doc__.strip())
        return 2
    subprocess.run([VECTORS / "make", "missing"], check=True)
    lines = list(lines_of(words[0] if words and words != ["write"] else ""))
    missed = sum("**none**" in line for line in lines)
    print(f"mutants: {len(lines) - missed} of {len(lines)} are found")
    if words == ["write"]:
        (VECTORS / "MUTANTS.md").write_text(HEAD + "\n".join(lines) + "\n")
    return int(missed > 0)


if __name__ == "__main__":
    sys.exit(main(sys.argv[1:]))
