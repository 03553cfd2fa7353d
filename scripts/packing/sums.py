"""Checksums, as sha256sum writes and checks them."""
from __future__ import annotations

from pathlib import Path

from sdm.laboratory.program import sum_of

NAME = "SHA256SUMS"


def of_files_below(top: Path) -> str:
    """The checksums of all files below a folder but of the checksums themselves, in the order of their paths."""
    files = sorted(path for path in top.rglob("*") if path.is_file() and not path.is_symlink() and path.name != NAME)
    return "".join(f"{sum_of(path)}  {path.relative_to(top).as_posix()}\n" for path in files)
