"""The package for JavaScript in node: its own tests, whole journeys by both modules, and its types."""
from __future__ import annotations

import json
import shutil
import subprocess
from pathlib import Path

from scripts.processors.played import PATIENCE, Played, outcome
from scripts.processors.tools import ran
from sdm.laboratory.program import TOP

MODULES = ["sdm.wasm", "sdm-64.wasm"]
EXAMPLE = TOP / "examples" / "approach"
WIDE_FLAG = "--experimental-wasm-memory64"  # which node up to 23 asks for
USER = Path("test") / "user.ts"  # of the package: a user's file, which its types must take
STRICT = ["--strict", "--target", "es2022", "--lib", "es2022,dom", "--module", "node16", "--moduleResolution", "node16"]
RUN_BY_USER = """import {{ readFileSync }} from "node:fs";
import {{ load }} from "sdm";
import {{ everyCall, rowsOf }} from "./user.js";
const [data, records] = readFileSync({input}, "utf8").split("%%\\n");
everyCall(await load(), data);
process.stdout.write(await rowsOf(data, records));
"""


def node_options(module: str) -> list[str]:
    """What node must be told to take a module."""
    if module == "sdm.wasm":
        return []
    known = subprocess.run(["node", WIDE_FLAG, "-e", "0"], capture_output=True, check=False)
    return [WIDE_FLAG] if known.returncode == 0 else []


def own_tests(folder: Path) -> list[Played]:
    """The package's own tests."""
    tests = sorted(str(path) for path in (folder / "test").glob("*.test.mjs"))
    words = ["node", "--expose-gc", *node_options("sdm-64.wasm"), "--test", *tests]
    done = subprocess.run(words, capture_output=True, timeout=PATIENCE, check=False)
    told = done.stdout.decode(errors="replace").splitlines()
    counts = [line.removeprefix("# ") for line in told if line.startswith(("# pass", "# fail", "# skipped"))]
    failed = [line.strip() for line in told if line.strip().startswith("not ok")]
    return [Played("node, the package's tests", ", ".join([*counts, *failed]), done.returncode == 0)]


def in_node(folder: Path, made: Path, module: str) -> list[Played]:
    """All journeys by a module."""
    words: list[str | Path] = ["node", *node_options(module), folder / "replay.mjs", "--folders", folder / module]
    return [outcome(f"node, {module}", [*words, TOP / "examples", TOP / "vectors", made])]


def live_in_node(folder: Path) -> list[Played]:
    """`live` over two pipes, with the records of examples/live."""
    words = ["node", str(folder / "replay.mjs"), "live"]
    due = (TOP / "examples" / "live" / "rows").read_bytes()
    given = (TOP / "examples" / "live" / "input").read_bytes()
    done = subprocess.run(words, input=given, capture_output=True, timeout=PATIENCE, check=False)
    is_same = (done.stdout, done.returncode) == (due, 0)
    return [Played("node, live", "pass: the answers of examples/live" if is_same else done.stderr.decode(), is_same)]


def project(folder: Path, scratch: Path) -> None:
    """Writes a project of a user who has installed the package: his file in TypeScript, and what runs it."""
    shutil.copytree(folder, scratch / "node_modules" / "sdm")
    shutil.copyfile(folder / USER, scratch / USER.name)
    (scratch / "package.json").write_text(json.dumps({"name": "user", "private": True, "type": "module"}))
    given = json.dumps(str(EXAMPLE / "input"))
    (scratch / "run.mjs").write_text(RUN_BY_USER.format(input=given))


def typed(folder: Path, scratch: Path) -> list[Played]:
    """A user's file in TypeScript over the package's types, compiled, and run over README's example."""
    project(folder, scratch)
    done = subprocess.run(["tsc", *STRICT, USER.name], cwd=scratch, capture_output=True, check=False)
    told = done.stdout.decode(errors="replace").strip()
    if done.returncode:
        return [Played("TypeScript, a user's file", told.partition("\n")[0], False)]
    ran_it = subprocess.run(["node", "run.mjs"], cwd=scratch, capture_output=True, timeout=PATIENCE, check=False)
    is_same = ran_it.stdout == (EXAMPLE / "rows").read_bytes()
    return [Played("TypeScript, a user's file", "README's rows" if is_same else ran_it.stderr.decode()[-500:], is_same)]


def packs(folder: Path) -> list[Played]:
    """What `npm pack` makes of the package, where npm is there: the files of the package and no others."""
    if shutil.which("npm") is None:
        return []
    told = ran("npm", "pack", "--dry-run", "--json", "--ignore-scripts", into=folder).decode()
    listed = sum(1 for line in told.splitlines() if '"path":' in line)
    there = sum(1 for path in folder.rglob("*") if path.is_file())
    return [Played("npm pack", f"{listed} files of {there}", listed == there)]


def by_npm(packed: Path, scratch: Path) -> list[Played]:
    """The package as npm installs it from its file, without a network, and the command that it brings."""
    if shutil.which("npm") is None:
        return []
    scratch.mkdir(parents=True)
    (scratch / "package.json").write_text(json.dumps({"name": "user", "private": True}))
    ran("npm", "install", "--offline", "--no-audit", "--no-fund", "--ignore-scripts", packed.resolve(), into=scratch)
    given = (EXAMPLE / "input").read_bytes()
    rows = ran(scratch / "node_modules" / ".bin" / "sdm-replay", "run", given=given)
    is_same = rows == (EXAMPLE / "rows").read_bytes()
    return [Played("npm install", "README's rows" if is_same else "other rows", is_same)]
