"""What a release has for other processors: an archive and a Debian package of each machine with Linux, the package for
JavaScript, the C source."""
from __future__ import annotations

import shutil
import tempfile
from pathlib import Path

from scripts.packing import archive, tree
from scripts.packing.facts import Release
from scripts.processors import build, proved
from scripts.processors.tools import must, ran

OF_WAYS = {  # what each way has in a release
    "aarch64": ("sdm-*-aarch64-linux.tar.gz", "libsdm-dev_*_arm64.deb"),
    "riscv64": ("sdm-*-riscv64-linux.tar.gz", "libsdm-dev_*_riscv64.deb"),
    "wasm": ("sdm-*.tgz",),
    "c": ("sdm-*-c.tar.gz",),
}
PACKED = ("*.deb", "*.tgz")  # files that are released as they were built


def write_folder(release: Release, folder: Path, name: str, into: Path) -> Path:
    """Writes a folder as a tar file, under another name."""
    with tempfile.TemporaryDirectory() as scratch:
        top = Path(scratch) / name
        shutil.copytree(folder, top, symlinks=True)
        tree.settle(release, top)
        packed = into / f"{name}.tar.gz"
        archive.pack_folder(release, top, packed)
    return packed


def write(release: Release, into: Path) -> list[Path]:
    """Builds all, and writes it into a folder; the paths."""
    proved.must_hold()
    build.modules.cache_clear()  # so that a second packing makes them a second time
    found: list[Path] = []
    for name, way in build.WAYS.items():
        folder = way()
        if name in ("aarch64", "riscv64"):
            prefix = build.prefix_of(folder)
            found.append(write_folder(release, prefix, prefix.name, into))
        if name == "c":
            found.append(write_folder(release, folder, f"sdm-{release.version}-c", into))
        files = sorted(path for pattern in PACKED for path in folder.glob(pattern))
        found += [Path(shutil.copy(path, into)) for path in files]
    return found


def unpacked(dist: Path, into: Path) -> dict[str, Path]:
    """What a release has in a folder, as `build` leaves it: a folder for each way."""
    folders = {name: into / name for name in build.WAYS}
    for name, folder in folders.items():
        folder.mkdir(parents=True)
        kinds = OF_WAYS[name]
        files = [path for kind in kinds for path in sorted(dist.glob(kind))]
        must(len(files) == len(kinds), f"{dist} hasn't one each of {' and '.join(kinds)}")
        for path in files:
            if path.suffix == ".deb":
                shutil.copy(path, folder)
            else:
                ran("tar", "--extract", f"--directory={folder}", "--file", path)
    for packed in dist.glob("sdm-*.tgz"):
        shutil.copy(packed, folders["wasm"])
    (folders["wasm"] / "package").rename(folders["wasm"] / "sdm")
    folders["c"] = build.prefix_of(folders["c"])
    return folders
