"""The pages as HTML, by pandoc. A link leads where its target stands below the prefix; one to what isn't packed becomes
plain text."""
from __future__ import annotations

import json
import posixpath
import re
from html.parser import HTMLParser
from pathlib import Path
from typing import Any
from urllib.parse import quote, unquote

from scripts.packing.facts import TEMPLATES, Release, ran
from scripts.packing.places import place_of, place_or_none
from sdm.laboratory.program import Fault

ELSEWHERE = re.compile(r"^[a-z][a-z0-9+.-]*:", re.I)


def target_of(page: str, target: str) -> str | None:
    """Where a link of a page leads in the packed pages; none, where its target isn't packed."""
    if ELSEWHERE.match(target) or target.startswith("#"):
        return target
    path, mark, anchor = target.partition("#")
    place = place_or_none(posixpath.normpath(posixpath.join(posixpath.dirname(page), unquote(path))))
    if place is None:
        return None
    return quote(posixpath.relpath(place, posixpath.dirname(place_of(page)))) + mark + anchor


def linked(page: str, part: Any) -> Any:
    """A part of a page, as pandoc tells it, with other targets of its links."""
    if isinstance(part, list):
        return [linked(page, each) for each in part]
    if not isinstance(part, dict):
        return part
    if part.get("t") not in ("Link", "Image"):
        return {name: linked(page, each) for name, each in part.items()}
    attributes, text, (target, title) = part["c"]
    to = target_of(page, target)
    if to is None:
        return {"t": "Span", "c": [["", ["elsewhere"], []], linked(page, text)]}
    return {"t": part["t"], "c": [attributes, linked(page, text), [to, title]]}


def title_of(document: dict[str, Any], page: str) -> str:
    """The text of a page's first heading."""
    for block in document["blocks"]:
        if block["t"] == "Header":
            return "".join(
                each["c"] if each["t"] == "Str" else " " for each in block["c"][2] if each["t"] in ("Str", "Space")
            )
    return page


def page(release: Release, name: str, text: bytes) -> bytes:
    """A page, told by its path in the repository, as HTML."""
    document = linked(name, json.loads(ran("pandoc", "--from=gfm", "--to=json", given=text)))
    return ran(
        "pandoc",
        "--from=json",
        "--to=html5",
        "--standalone",
        f"--template={TEMPLATES / 'page.html'}",
        f"--metadata=pagetitle:{title_of(document, name)}",
        f"--metadata=version:{release.version}",
        f"--metadata=commit:{release.commit}",
        given=json.dumps(document).encode(),
    )


class Links(HTMLParser):
    """The targets of a page's links and pictures, and its anchors."""

    def __init__(self, text: str) -> None:
        super().__init__()
        self.targets: list[str] = []
        self.anchors: set[str] = set()
        self.feed(text)

    def handle_starttag(self, tag: str, attributes: list[tuple[str, str | None]]) -> None:
        for name, value in attributes:
            if name in ("href", "src") and value:
                self.targets.append(value)
            elif name == "id" and value:
                self.anchors.add(value)


def faults_of_links(prefix: Path) -> list[str]:
    """The links of the pages below a prefix that lead nowhere, and those of other hosts left out."""
    pages = {path: Links(path.read_text()) for path in sorted(prefix.rglob("*.html"))}
    faults = []
    for path, links in pages.items():
        for target in links.targets:
            name, _, anchor = target.partition("#")
            to = (path.parent / unquote(name)).resolve() if name else path
            if ELSEWHERE.match(target):
                continue
            if not to.exists() or (anchor and (to not in pages or unquote(anchor) not in pages[to].anchors)):
                faults.append(f"{path.relative_to(prefix)}: {target} leads nowhere")
    return faults if pages else ["there is no page"]


def check_links(prefix: Path) -> None:
    """A fault where a link leads nowhere."""
    faults = faults_of_links(prefix.resolve())
    if faults:
        raise Fault("; ".join(faults[:5]))
