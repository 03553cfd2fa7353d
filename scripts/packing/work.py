"""Packs a release: the archive, the Debian packages and their checksums, twice in two folders, and only where both are
the same."""
from __future__ import annotations

import filecmp
import shutil
import tempfile
from collections.abc import Callable
from dataclasses import dataclass
from pathlib import Path

from scripts.packing import archive, debian, sums, tree
from scripts.packing.facts import Contents, Release, ran
from sdm.laboratory.program import Fault


def files_of(release: Release, into: Path) -> Path:
    """Writes the files of the release's commit into a folder that is made, and the vectors, which no commit has."""
    into.mkdir()
    ran("tar", "--extract", f"--directory={into}", given=ran("git", "archive", "--format=tar", release.commit))
    ran(into / "vectors" / "make")
    return into


@dataclass(frozen=True)
class Built:
    """What was built and is packed: the program, and the libraries of the crates sdm_c and sdm_calls."""

    program: Path
    library: Path
    calls: Path


More = Callable[[Release, Path], list[Path]]  # writes more files of a release into a folder


def pack_once(release: Release, built: Built, into: Path, more: More) -> list[Path]:
    """Writes what is packed into a folder that is empty; the paths."""
    packed: list[Path] = []
    with tempfile.TemporaryDirectory(prefix="sdm-packing-") as name:
        scratch = Path(name)
        files, placed = files_of(release, scratch / "commit"), scratch / "placed"
        contents = Contents(built.program, built.library, files, placed, built.calls)
        tree.place_files(release, contents)
        for write in (archive.write, debian.write):
            place = scratch / write.__module__
            place.mkdir()
            packed += write(release, contents, place, into)
    packed += more(release, into)
    checksums = into / sums.NAME
    checksums.write_text(sums.of_files_below(into))
    return [*packed, checksums]


def nothing(release: Release, into: Path) -> list[Path]:
    """No more files."""
    return []


def pack(release: Release, built: Built, into: Path, more: More = nothing) -> list[Path]:
    """Packs into a folder, in the place of what it has; a fault, where a second time gives other bytes."""
    with tempfile.TemporaryDirectory() as one, tempfile.TemporaryDirectory() as other:
        packed = pack_once(release, built, Path(one), more)
        again = pack_once(release, built, Path(other), more)
        for first, second in zip(packed, again, strict=True):
            if not filecmp.cmp(first, second, shallow=False):
                raise Fault(f"{first.name} has other bytes when it is packed again.")
        shutil.rmtree(into, ignore_errors=True)
        into.mkdir(parents=True)
        return [Path(shutil.copy(path, into)) for path in packed]
