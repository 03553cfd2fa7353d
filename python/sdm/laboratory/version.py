"""The version of the package: that of the last release, and the commit where it is past it."""
import re
import subprocess
import sys
from functools import cache

import sdm

from sdm.laboratory.program import IS_REPOSITORY, TOP


@cache
def version() -> str:
    """The version; of a repository whose CHANGELOG has changes since, with the beginning of the commit's name, as
    scripts/house release names it."""
    since = re.search(r"^## \[Unreleased\]$(.*?)^## ", changelog(), re.M | re.S)
    commit = head() if since and since[1].strip() else ""
    return sdm.__version__ + (f"+{commit[:8]}" if commit else "")


def changelog() -> str:
    """The text of CHANGELOG.md, where there is one."""
    return (TOP / "CHANGELOG.md").read_text() if IS_REPOSITORY else ""


def head() -> str:
    """The commit that is checked out, or nothing where git doesn't say."""
    try:
        words = ["git", "-C", str(TOP), "rev-parse", "HEAD"]
        return subprocess.run(words, capture_output=True, text=True, check=True).stdout.strip()
    except (OSError, subprocess.CalledProcessError):
        return ""


def main(args: list[str]) -> int:
    """`python3 -m sdm version`."""
    if args:
        print("usage: version", file=sys.stderr)
        return 2
    print(f"sdm {version()}")
    return 0
