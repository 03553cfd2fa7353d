"""The overview of a campaign: how its journeys ended, which differ from what is due, and links to their pages."""

import collections
import os
from collections.abc import Sequence
from html import escape
from pathlib import Path
from urllib.parse import quote

from sdm.campaign import OUTCOMES, differences, got, statistics
from sdm.laboratory.cases import case_of
from sdm.laboratory.statistics import COMMANDS, MARGINS, Figures, Statistics, milliseconds
from sdm.laboratory.version import version
from sdm.laboratory.walk import write

from sdm.reporting.made import Source, report_of
from sdm.reporting.page import TextTable, page, section, table

PAGE = "report.html"  # beside the input of a journey
Pages = dict[str, str]  # the way from the overview to the page of a journey, by the journey's name


def ended(figures: Figures) -> str:
    """With which code a journey ended, and what that means."""
    return "not run" if figures.code is None else f"{figures.code} {OUTCOMES.get(figures.code, 'no end of sdm')}"


def has_page(figures: Figures) -> bool:
    """Whether a page can be made of a journey: of what `run` made of an input."""
    return figures.words == "run" and figures.code in OUTCOMES


def write_page(folder: Path, name: str, back: str) -> None:
    """Writes the page of a journey beside its input, with a link back to the overview."""
    case, made = case_of(folder, name), got(folder)
    assert made is not None, "only a journey that was run has a page"
    link = f'<p><a href="{quote(back)}">all journeys</a></p>\n'
    differing = differences(case, made)
    if differing:
        link += f'<pre class="bad">{escape(chr(10).join(differing))}</pre>\n'
    source = Source(f"{name}/input", case.data)
    report = report_of(f"sdm run: {name}", source, made, "written by tools/campaign", link=link)
    write(folder / PAGE, report.html)


def linked(figures: Figures, pages: Pages, row: int | None = None) -> str:
    """The name of a journey, and a row of it where one is meant; it leads there, where the journey has a page."""
    text = escape(figures.name) + ("" if row is None else f", row {row}")
    if figures.name not in pages:
        return text
    return f'<a href="{quote(pages[figures.name])}{"" if row is None else f"#row-{row}"}">{text}</a>'


def line_of(figures: Figures, pages: Pages) -> str:
    """The line of a journey in the overview."""
    due = figures.verdict if figures.verdict in ("as due", "differs") else ""
    counts = [figures.readings, *(figures.commanded[name] for name in COMMANDS)]
    numbers = [f"{count:,}" if figures.readings else "" for count in counts]
    cells = [linked(figures, pages), *(escape(text) for text in (figures.words, ended(figures), due, *numbers))]
    kind = ' class="beyond"' if due == "differs" else ""
    return f"<tr{kind}>{''.join(f'<td>{cell}</td>' for cell in cells)}</tr>\n"


def ends_table(journeys: Sequence[Figures]) -> TextTable:
    """How many journeys ended in which way, and how many came out as due."""
    ends = collections.Counter(map(ended, journeys))
    dues = collections.Counter(each.verdict for each in journeys if each.code is not None)
    return [[name, f"{count:,}"] for name, count in [*sorted(ends.items()), *sorted(dues.items())]]


def statistics_section(found: Statistics, pages: Pages) -> str:
    """What tools/campaign tells with --statistics; nothing where no row was counted."""
    if not found.readings:
        return ""
    counts = table([["", "readings", "times", "journeys"], *found.counts()], "counts", head=True)
    lines = []
    for name, figures in found.nearest():
        margin = figures.margins[name]
        way = f"least way from the max safe front end to {MARGINS[name]}: {margin.mm:,} mm"
        lines.append(f"<li>{way}, {linked(figures, pages, margin.row)}</li>\n")
    for figures in found.slowest():
        slow = f"slow: {milliseconds(figures)}, {figures.readings:,} readings"
        lines.append(f"<li>{slow}, {linked(figures, pages)}</li>\n")
    return section("In numbers", f'<p>{found.total()}</p>\n{counts}<ul id="extremes">\n{"".join(lines)}</ul>\n')


def write_pages(journeys: Sequence[Figures], nearest: Sequence[Figures], top: Path, out: Path, most: int) -> Pages:
    """Writes the pages of at most so many journeys, the first ones that can have one, and of those with the least
    ways."""
    pages = {}
    first = [each for each in journeys if has_page(each)][:most]
    for each in first + [each for each in nearest if has_page(each) and each not in first]:
        folder = top / each.name
        write_page(folder, each.name, os.path.relpath(out, folder))
        pages[each.name] = os.path.relpath(folder / PAGE, out.parent)
    return pages


def write_overview(top: Path, out: Path, title: str | None, most: int) -> None:
    """Writes the overview of a folder that tools/campaign ran, and the pages of at most so many of its journeys, those
    that differ first. Raises Fault where there is no journey, or a page can't be written."""
    top = top.resolve()
    found = statistics(top)
    journeys = sorted(found.journeys, key=lambda each: each.verdict != "differs")
    pages = write_pages(journeys, [figures for _, figures in found.nearest()], top, out.resolve(), most)
    head = "".join(f"<th>{name}</th>" for name in ["journey", "words", "end", "due", "rows", *COMMANDS])
    note = f"<p>The columns tco, sb and eb count rows. {len(pages):,} of {len(journeys):,} journeys have a page.</p>\n"
    lines = "".join(line_of(each, pages) for each in journeys)
    sections = [
        f"<p>Made by sdm {version()} of what tools/campaign wrote in {escape(top.name)}.</p>\n",
        section("Ends", table(ends_table(journeys), "ends")),
        statistics_section(found, pages),
        section("Journeys", f'{note}<table id="journeys"><tr>{head}</tr>\n{lines}</table>\n'),
    ]
    write(out, page(title or f"Campaign {top.name}: {len(journeys):,} journeys", sections))
