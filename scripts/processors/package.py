"""The package for JavaScript: what stands in javascript/, with the modules and what is generated, as npm takes it."""
from __future__ import annotations

import json
import re
import shutil
from pathlib import Path

from scripts.packing import archive, tree
from scripts.packing.facts import Release
from scripts.processors import page, script
from scripts.processors.tools import must
from sdm.laboratory.program import TOP

SOURCE = TOP / "javascript"
EXAMPLES = [
    "approach",
    "calculated-release-speed",
    "causes",
    "display",
    "live",
    "refused-data",
    "temporary-restriction",
]
PARTS = ["input", "args", "rows", "err", "code"]  # of an example


def described(release: Release) -> str:
    """package.json, with the version as npm writes one."""
    facts = json.loads((SOURCE / "package.json").read_text())
    base, _, more = release.version.partition("+")
    must(re.fullmatch(r"\d+\.\d+\.\d+", base) is not None, f"{base} is no version that npm knows")
    facts["version"] = base + (f"-{more.replace('+', '.')}" if more else "")
    return json.dumps(facts, indent=2) + "\n"


def write(release: Release, wide: Path, narrow: Path, into: Path, told: str) -> None:
    """Writes the package into a new folder, and beside it the file that npm installs."""
    shutil.copytree(SOURCE, into)
    (into / "structs.mjs").write_text(script.module())
    (into / "package.json").write_text(described(release))
    (into / "BUILD").write_text(told)
    for module in (wide, narrow):
        shutil.copyfile(module, into / module.name)
    page.write(into)
    for example in EXAMPLES:
        (into / "examples" / example).mkdir(parents=True)
        for part in PARTS:
            if (TOP / "examples" / example / part).exists():
                shutil.copyfile(TOP / "examples" / example / part, into / "examples" / example / part)
    tree.settle(release, into)
    packed = into.parent / "package"  # as npm names the folder in its file
    shutil.copytree(into, packed)
    tree.settle(release, packed)
    archive.pack_folder(release, packed, into.parent / f"sdm-{json.loads(described(release))['version']}.tgz")
    shutil.rmtree(packed)
