"""Packs a release of the commit that lies here into dist/: an archive, two Debian packages, what there is for other
processors, and their checksums.

    scripts/house release

It takes a clean work tree alone; the program alone that scripts/house program marked as built, proved, from these
sources; and the library for C that scripts/house library marked so, which it has built first where there is none. It
packs twice, in two folders, and leaves dist/ as it was where the bytes differ. `scripts/setup release` installs what
it needs. docs/LIBRARY.md has what is packed, scripts/house check release tries it."""
from __future__ import annotations

import re
import sys
import time

from scripts.c import header
from scripts.packing.facts import Release, ran
from scripts.packing.work import Built, pack
from scripts.pages import manual
from scripts.processors import released
from scripts.product import marks
from sdm.laboratory.program import CALLS, LIBRARY, PROGRAM, TOP, Fault

DIST = TOP / "dist"
UNRELEASED = re.compile(r"^## \[Unreleased\]\n(.*?)(?=^## \[)", re.M | re.S)


def version_of(commit: str, changelog: str) -> str:
    """The changelog's version; of a commit that has changes since, with the beginning of its name."""
    since = UNRELEASED.search(changelog)
    return f"{manual.version()}+{commit[:8]}" if since and since[1].strip() else manual.version()


def facts(mark: dict[str, str]) -> Release:
    """What is told of the release of the commit that lies here."""
    commit, epoch, author = ran("git", "log", "-1", "--format=%H%n%ct%n%an <%ae>").decode().splitlines()
    text = header.text()
    calls = tuple(call.name for call in header.calls(text))
    version = version_of(commit, (TOP / "CHANGELOG.md").read_text())
    return Release(version, commit, int(epoch), author, mark["kit"], mark["sources"], header.layout(text), calls)


def release() -> None:
    """Packs the release, or ends with a fault."""
    if ran("git", "status", "--porcelain"):
        raise Fault("The work tree isn't clean, so what lies here is no commit.")
    marks.must_hold(PROGRAM)
    for product in (LIBRARY, CALLS):
        if product.fault():
            marks.build_library(product)
        if PROGRAM.marked()["kit"] != product.marked()["kit"]:
            raise Fault(f"The program and the {product.kind} were built by two toolchains.")
    begun = time.monotonic()
    built = Built(PROGRAM.path, LIBRARY.path, CALLS.path)
    for path in pack(facts(PROGRAM.marked()), built, DIST, released.write):
        print(f"{path.relative_to(TOP)}: {path.stat().st_size:,} bytes")
    print(f"packed twice, with the same bytes, in {time.monotonic() - begun:.0f} s")
    print((DIST / "SHA256SUMS").read_text(), end="")


def main(words: list[str]) -> int:
    if words:
        print(__doc__.strip(), file=sys.stderr)
        return 2
    try:
        release()
    except Fault as why:
        print(f"release: {why}", file=sys.stderr)
        return 1
    return 0
