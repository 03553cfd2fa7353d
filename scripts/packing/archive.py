"""The tar file of a release."""
from __future__ import annotations

from pathlib import Path

from scripts.packing import bill, python, sums, tree
from scripts.packing.facts import Contents, Release, filled, ran


def pack_folder(release: Release, top: Path, to: Path) -> None:
    """Writes a folder, of settled files, as a tar file that tells nothing of where, when and by whom it was made."""
    tar = ran(
        "tar",
        "--create",
        "--file=-",
        "--format=gnu",
        "--sort=name",
        f"--mtime=@{release.epoch}",
        "--owner=0",
        "--group=0",
        "--numeric-owner",
        f"--directory={top.parent}",
        top.name,
    )
    to.write_bytes(ran("gzip", "-9", "--no-name", given=tar))


def write(release: Release, contents: Contents, scratch: Path, into: Path) -> list[Path]:
    """Writes the archive into a folder; its path, as the only one."""
    top, packed = scratch / release.name, into / f"{release.name}.tar.gz"
    tree.write(release, contents, top, "${pcfiledir}/../..", "lib", scratch)
    python.write_wheel(release, contents, top / "lib", scratch, top / "share" / "sdm" / "python")
    (top / "README").write_text(filled("README", version=release.version))
    bill.write(release, contents, top)
    (top / sums.NAME).write_text(sums.of_files_below(top))
    tree.settle(release, top)
    pack_folder(release, top, packed)
    return [packed]
