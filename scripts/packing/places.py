"""What stands where below a prefix: by the path in the repository."""
from __future__ import annotations

from pathlib import PurePosixPath

from sdm.laboratory.program import Fault

PAGES = "share/doc/sdm/html"
WHOLE = {  # these files
    "c/sdm.h": "include/sdm.h",
    "c/sdm.hpp": "include/sdm.hpp",
    "c/sdm_calls.h": "include/sdm_calls.h",
    "c/sdm_calls.hpp": "include/sdm_calls.hpp",
    "c/ada/sdm.ads": "share/ada/adainclude/sdm.ads",
    "c/ada/sdm_calls.ads": "share/ada/adainclude/sdm_calls.ads",
    "docs/sdm.1": "share/man/man1/sdm.1",
    "docs/sdm.h.3": "share/man/man3/sdm.h.3",
    "docs/sdm_calls.h.3": "share/man/man3/sdm_calls.h.3",
}
# These folders, with what is in them, but what is left out.
FOLDERS = {"c": "share/sdm/c", "examples": "share/sdm/examples", "vectors": "share/sdm/vectors"}
LEFT_OUT = ["tools", "c/.clang-format", "vectors/make", "vectors/maker", "vectors/mutants", "examples/recording/make"]
LEFT_OUT += ["c/module", "c/portable", "javascript"]  # parts of what is built for other processors


def is_below(path: str, folder: str) -> bool:
    """Whether a path is a folder, or in it."""
    return path == folder or path.startswith(folder + "/")


def place_or_none(path: str) -> str | None:
    """Where a file or folder of the repository stands below the prefix; none, where it isn't packed."""
    if any(is_below(path, folder) for folder in LEFT_OUT):
        return None
    if path == "README.md":
        return f"{PAGES}/index.html"
    if path.endswith(".md"):
        return f"{PAGES}/{PurePosixPath(path).with_suffix('.html')}"
    if path in WHOLE:
        return WHOLE[path]
    for folder, place in FOLDERS.items():
        if is_below(path, folder):
            return place + path.removeprefix(folder)
    return None


def place_of(path: str) -> str:
    """Where a file stands that is packed."""
    place = place_or_none(path)
    if place is None:
        raise Fault(f"{path} has no place in what is packed.")
    return place
