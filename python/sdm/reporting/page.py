"""The page of a report: one HTML file with the plot's data and the library d3 in it. It loads nothing from elsewhere,
which its own policy forbids a browser.

d3 is Debian's; its licence stands in the page, as the licence asks.
"""

import base64
import json
import zlib
from collections.abc import Sequence
from html import escape
from pathlib import Path
from string import Template

from sdm.drawing.sheet import STATES, STATUSES
from sdm.laboratory.program import Fault

from sdm.reporting.journey import Json

HERE = Path(__file__).resolve().parent
D3 = Path("/usr/share/nodejs/d3/dist/d3.min.js")
LICENCE = Path("/usr/share/doc/node-d3/copyright")
SCRIPTS = ["plot.js", "page.js", "view.js"]
TextTable = list[list[str]]


def part(name: str) -> str:
    """A file of this package."""
    return (HERE / name).read_text()


def library() -> tuple[str, str]:
    """The text of d3, and of its licence. Raises Fault where it isn't installed."""
    try:
        return D3.read_text(), LICENCE.read_text()
    except OSError:
        raise Fault(f"d3 is not installed, there is no {D3}; scripts/setup installs it.") from None


def packed(data: Json) -> str:
    """Data as JSON, packed, as page.js unpacks it."""
    text = json.dumps(data, separators=(",", ":"), ensure_ascii=False).encode()
    return base64.b64encode(zlib.compress(text, 9)).decode()


def unpacked(text: str) -> Json:
    """The data that were packed."""
    data: Json = json.loads(zlib.decompress(base64.b64decode(text)))
    return data


def table(lines: TextTable, name: str = "", head: bool = False) -> str:
    """A table of texts; its first line is a head where it is said so, and else the first cell of each line is."""
    named = f' id="{name}"' if name else ""
    made = []
    for number, line in enumerate(lines):
        cells = [
            f"<th>{escape(cell)}</th>" if (number == 0 if head else place == 0) else f"<td>{escape(cell)}</td>"
            for place, cell in enumerate(line)
        ]
        made.append(f"<tr>{''.join(cells)}</tr>")
    return f"<table{named}>\n" + "\n".join(made) + "\n</table>\n"


def section(title: str, body: str) -> str:
    return f"<section>\n<h2>{escape(title)}</h2>\n{body}</section>\n"


def shades() -> Json:
    """The colours of states and statuses: of each letter its own and that of ink on it."""
    return {
        name: {letter: [shade.colour, shade.ink] for letter, shade in those.items()}
        for name, those in (("state", STATES), ("status", STATUSES))
    }


def plot_section(count: int, is_compared: bool) -> str:
    """The plot, the cursor and what it shows."""
    heads = ["", "sdm", "recording", "apart", "of target"] if is_compared else ["", "sdm", "of target"]
    buttons = [f'<button type="button" id="difference-{way}">{way}</button>' for way in ("before", "next")]
    buttons = [button.replace("difference-next", "difference-after") for button in buttons]
    return Template(part("plot.html")).substitute(
        count=count,
        rows=f"{count:,}",
        heads="".join(f"<th>{head}</th>" for head in heads),
        differences=f"difference: {' '.join(buttons)}" if is_compared else "",
        statuses="\n".join(
            f'<span class="mark" style="--colour: {shade.colour}">{letter} {shade.name}</span>'
            for letter, shade in STATUSES.items()
        ),
    )


def scripts(data: Json) -> str:
    """What the plot needs: its data, d3 with its licence, and the scripts of this package."""
    text, licence = library()
    own = "".join(part(name) for name in SCRIPTS)
    return (
        f"<details><summary>Licence of d3, which this page contains</summary><pre>{escape(licence)}</pre></details>\n"
        f'<script type="text/plain" id="data">{packed(data)}</script>\n'
        f"<script>{text}</script>\n<script>\n{own}</script>\n"
    )


def page(title: str, sections: Sequence[str], data: Json | None = None) -> str:
    """The whole page; with the scripts of the plot where there are data for it."""
    return Template(part("page.html")).substitute(
        title=escape(title),
        style=part("page.css"),
        body="".join(sections),
        scripts=scripts(data) if data is not None else "",
    )
