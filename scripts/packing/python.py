"""The Python package of a release: a wheel for pip, which has the shared libraries in it, and the files of a Debian
package, which takes those of the package sdm."""
from __future__ import annotations

import re
import shutil
import sys
from pathlib import Path
from zipfile import ZipFile

from scripts.packing import tree
from scripts.packing.facts import Contents, Release, filled, ran
from sdm.laboratory.program import Fault

SYSTEM = "manylinux_2_34_x86_64"  # what pip calls an x86-64 Linux with that C library or a later one
MODULES = "lib/python3/dist-packages"
# In the wheel, where sdm.library and sdm.calls look for them first.
LIBRARIES = ["sdm/libsdm.so", "sdm/libsdm-calls.so"]
NOT_DEBIANS = re.compile(
    r"sdm/libsdm(-calls)?\.so|.*\.dist-info/RECORD"
)  # which lists files for pip, and Debian leaves out


def source(release: Release, contents: Contents, libraries: Path, scratch: Path) -> Path:
    """Writes the folder of which setuptools makes the wheel, with the shared libraries of a folder."""
    into = scratch / "wheel"
    shutil.copytree(contents.files / "python", into, ignore=shutil.ignore_patterns("tests"))
    for place in LIBRARIES:
        if (libraries / Path(place).name).exists():
            shutil.copyfile(libraries / Path(place).name, into / place)
    head = into / "sdm" / "__init__.py"
    text, count = re.subn(r'^__version__ = ".*"$', f'__version__ = "{release.version}"', head.read_text(), flags=re.M)
    if count != 1:
        raise Fault("python/sdm/__init__.py has no version.")
    head.write_text(text)
    tree.settle(release, into)
    return into


def write_wheel(release: Release, contents: Contents, libraries: Path, scratch: Path, into: Path) -> Path:
    """Writes the wheel, with the shared libraries of a folder, into another; its path."""
    into.mkdir(parents=True, exist_ok=True)
    ran(
        sys.executable,
        "-c",
        "import setuptools; setuptools.setup()",
        "bdist_wheel",
        f"--plat-name={SYSTEM}",
        f"--dist-dir={into}",
        into=source(release, contents, libraries, scratch),
        epoch=release.epoch,
    )
    return next(into.glob("*.whl"))


def write_for_debian(wheel: Path, usr: Path) -> None:
    """Writes what the wheel has, except the libraries, to where Debian has it."""
    with ZipFile(wheel) as packed:
        packed.extractall(usr / MODULES, [name for name in packed.namelist() if not NOT_DEBIANS.fullmatch(name)])
    (usr / "bin").mkdir()
    (usr / "bin" / "sdm-tools").write_text(filled("sdm-tools"))
    documents = usr / "share" / "doc"
    documents.mkdir(parents=True)
    (documents / "python3-sdm").symlink_to("sdm")
