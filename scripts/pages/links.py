"""Checks the pages of the repository: every relative link and picture leads to a file or folder in it, every anchor
to a heading or to a line; the records that README shows are those of examples/, with their rows; and the code that
docs/INTEGRATION.md and docs/FROM-C.md show stands in crates/sdm_onboard or in c/; docs/LABORATORY.md shows what
tools/compare prints. Links to other hosts are not followed.

    scripts/house check links
"""
from __future__ import annotations

import re
import subprocess
from collections.abc import Iterator
from functools import cache
from pathlib import Path
from urllib.parse import unquote

from scripts.pages.part import told
from scripts.pages.specs import ROOT

FENCE = re.compile(r"^(```|~~~).*?^\1\s*$", re.M | re.S)
CODE = re.compile(r"`[^`\n]*`")
LINK = re.compile(r"\]\(\s*<?([^)\s>]+)>?(?:\s+\"[^\"]*\")?\s*\)")
LINE = re.compile(r"L(\d+)")  # the anchor of a line of a file
HEADING = re.compile(r"^#{1,6}\s+(.*?)\s*#*$", re.M)
SHOWN_CODE = [  # a page, the language of code that it shows, and where that is from
    ("docs/INTEGRATION.md", "rust", "crates/sdm_onboard/src/*.rt"),
    ("docs/FROM-C.md", "c", "c/*.c"),
    ("docs/FROM-C.md", "ada", "c/ada/*.adb"),
]
SHOWN_EXAMPLES = [("README.md", "approach")]  # a page, and the folder of examples/ whose records and rows it shows
COMPARED = [
    "tools/compare",
    *(f"examples/interventions/{name}" for name in ("rows", "recording.csv")),
    "--mapping",
    "examples/interventions/mapping.toml",
    "--mm",
    "2",
    "--ds",
    "5",
    "--most",
    "2",
]  # what docs/LABORATORY.md shows a run of
ELSEWHERE = re.compile(r"^[a-z][a-z0-9+.-]*:", re.I)


def pages() -> list[Path]:
    """The Markdown files that are kept, in order."""
    words = ["git", "-C", str(ROOT), "ls-files", "--cached", "--others", "--exclude-standard", "*.md"]
    names = subprocess.run(words, check=True, capture_output=True, text=True).stdout.splitlines()
    return [ROOT / name for name in sorted(names) if (ROOT / name).exists()]


def slug_of(heading: str) -> str:
    """The anchor of a heading, as the forge makes it."""
    text = re.sub(r"!?\[([^\]]*)\]\([^)]*\)", r"\1", heading).replace("`", "").replace("*", "").lower()
    return re.sub(r"[^\w\- ]", "", text).replace(" ", "-")


@cache
def anchors(page: Path) -> set[str]:
    """The anchors of a page's headings."""
    found: dict[str, int] = {}
    for heading in HEADING.findall(FENCE.sub("", page.read_text())):
        slug = slug_of(heading)
        count = found.get(slug, 0)
        found[slug] = count + 1
        if count:
            found[f"{slug}-{count}"] = 1
    return set(found)


def fault_of(page: Path, target: str) -> str | None:
    """What is wrong with a link of a page, if anything is."""
    path, _, anchor = unquote(target).partition("#")
    to = (page.parent / path).resolve() if path else page
    if ROOT not in to.parents and to != ROOT:
        return "leads out of the repository"
    if not to.exists():
        return "leads nowhere"
    line = LINE.fullmatch(anchor)
    if line and to.suffix != ".md":
        return None if int(line[1]) <= len(to.read_text().splitlines()) else "has no such line"
    if anchor and (to.suffix != ".md" or anchor not in anchors(to)):
        return "has no such heading"
    return None


def links_of(page: Path) -> Iterator[tuple[int, str]]:
    """The relative links of a page with their lines; code is none."""
    text = FENCE.sub(lambda block: re.sub(r"[^\n]", " ", block.group()), page.read_text())
    for number, line in enumerate(text.splitlines(), 1):
        if not line.startswith("    "):
            for target in LINK.findall(CODE.sub("", line)):
                if not ELSEWHERE.match(target):
                    yield number, target


def example_faults() -> Iterator[str]:
    """Where a page's example isn't the folder's."""
    for page, name in SHOWN_EXAMPLES:
        text = (ROOT / page).read_text()
        example = ROOT / "examples" / name
        shown = {
            "records": (example / "input").read_text().partition("%%\n")[2],
            "rows": (example / "rows").read_text(),
        }
        for what, lines in shown.items():
            if f"```\n{lines}```\n" not in text:
                yield f"{page}: its example has not the {what} of examples/{name}"


def code_faults() -> Iterator[str]:
    """Where code that a page shows isn't that of the programs that it shows."""
    for page, language, files in SHOWN_CODE:
        sources = [path.read_text() for path in ROOT.glob(files)]
        blocks = re.findall(rf"^```{language}\n(.*?)^```$", (ROOT / page).read_text(), re.M | re.S)
        for block in blocks:
            if not any(block in source for source in sources):
                yield f"{page}: {files} has no such code: {block.splitlines()[0].strip()}"
        if not blocks:
            yield f"{page}: it shows no code of {files}"


def output_faults() -> Iterator[str]:
    """Where docs/LABORATORY.md shows another comparison than the tool prints, or another mapping."""
    text = (ROOT / "docs" / "LABORATORY.md").read_text()
    printed = subprocess.run(COMPARED, cwd=ROOT, capture_output=True, text=True, check=False).stdout
    shown = {
        "the command": " ".join(COMPARED),
        "its output": "".join(f"    {line}".rstrip() + "\n" for line in printed.splitlines()),
        "its mapping": f"```toml\n{(ROOT / COMPARED[4]).read_text()}```\n",
    }
    for what, lines in shown.items():
        if not printed or lines not in text:
            yield f"docs/LABORATORY.md: it doesn't show {what} of tools/compare as it is"


def link_faults(links: list[tuple[Path, int, str]]) -> Iterator[str]:
    """What is wrong with links, each a page, a line and where it leads."""
    for page, number, target in links:
        fault = fault_of(page, target)
        if fault:
            yield f"{page.relative_to(ROOT)}:{number}: {target} {fault}"


def main(_: list[str]) -> int:
    links = [(page, number, target) for page in pages() for number, target in links_of(page)]
    return told("links", len(links), [*example_faults(), *code_faults(), *output_faults(), *link_faults(links)])
