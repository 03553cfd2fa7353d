"""A report: what was run, its outcome, the plot with the cursor, differences, statistics."""

import hashlib
import os
from collections.abc import Sequence
from dataclasses import dataclass, field
from fractions import Fraction
from html import escape
from pathlib import Path

from sdm.diagnosis.diagnosing import Diagnosis, diagnosis_of
from sdm.diagnosis.telling import explanation_lines
from sdm.findings import explanation
from sdm.laboratory.comparison import Allowed
from sdm.laboratory.program import PROGRAM, Fault, Result
from sdm.laboratory.recording import recording_of
from sdm.laboratory.rows import rows_of
from sdm.laboratory.version import version

from sdm.reporting.differences import MOST_PICTURES, Comparison
from sdm.reporting.journey import Json, Told, journey_json
from sdm.reporting.page import TextTable, page, plot_section, section, shades, table
from sdm.reporting.statistics import journey_table

ALLOWED: Allowed = {"mm": Fraction(2), "km/h": Fraction(1, 2), "ds": 0}  # where nothing else is said
MOST_FINDINGS = 40


@dataclass(frozen=True)
class Source:
    """A file or a text that went into a report: what it is called, and its bytes."""

    name: str
    data: bytes

    def fact(self) -> str:
        return f"{self.name}, {len(self.data):,} bytes, SHA-256 {hashlib.sha256(self.data).hexdigest()}"


@dataclass(frozen=True)
class Recorded:
    """Another computer's recording, its mapping, and how far values may be apart, by the unit."""

    recording: Source
    mapping: Source | None = None
    allowed: Allowed = field(default_factory=lambda: dict(ALLOWED))


@dataclass(frozen=True)
class Report:
    """A page as HTML, which a notebook shows in a frame."""

    html: str = field(repr=False)

    def _repr_html_(self) -> str:
        return f'<iframe srcdoc="{escape(self.html)}" width="100%" height="900"></iframe>'

    def save(self, path: str | os.PathLike[str]) -> None:
        """Writes it to a file. Raises OSError where it can't be written."""
        Path(path).write_text(self.html, encoding="utf-8")


def program_fact(program: Path) -> str:
    """Which program ran: its digest, and what the mark of the built one says of its sources."""
    text = Source(program.name, program.read_bytes()).fact()
    mark = PROGRAM.marked() if program == PROGRAM.path else {}
    return text + "".join(f"; {name} {mark[name]}" for name in ("sources", "kit") if name in mark)


def run_facts(source: Source, result: Result, ran: str, recorded: Recorded | None) -> TextTable:
    """What was run."""
    lines = [
        ["package", f"sdm {version()}, which made this page; the causes and the curves are its model's"],
        ["rows", ran],
        ["input", source.fact()],
        ["output", Source(f"{result.rows.count(chr(10)):,} rows", result.rows.encode()).fact()],
    ]
    if recorded is not None:
        lines.append(["recording", recorded.recording.fact()])
        lines.append(["mapping", recorded.mapping.fact() if recorded.mapping else "none: the columns are a row's own"])
        apart = (f"{float(recorded.allowed[unit]):g} {unit}" for unit in ALLOWED)
        lines.append(["tolerances", ", ".join(apart)])
    return lines


def mapping_text(recorded: Recorded | None) -> str:
    """The mapping, to be unfolded."""
    if recorded is None or recorded.mapping is None:
        return ""
    text = recorded.mapping.data.decode("utf-8-sig", "replace")
    return f"<details><summary>The mapping</summary><pre>{escape(text)}</pre></details>\n"


def outcome_of(result: Result) -> str:
    """How the run ended, in a sentence."""
    if result.code == 0:
        return "The run was accepted to its end."
    return f"The run ended with code {result.code}: {result.err.strip()}"


def findings_section(source: Source, result: Result) -> str:
    """Why the input was refused, or what looks wrong in one that wasn't; nothing where nothing does."""
    found = [str(each) for each in explanation(source.data).findings] if result.code in (0, 4, 5, 6, 7) else []
    if not found:
        return ""
    more = [f"and {len(found) - MOST_FINDINGS} more"] if found[MOST_FINDINGS:] else []
    lines = "\n".join(f"<li>{escape(line)}</li>" for line in found[:MOST_FINDINGS] + more)
    title = "Why the input was refused" if result.code else "What looks wrong in the input"
    return section(title, f"<ul>\n{lines}\n</ul>\n")


def comparison_sections(comparison: Comparison) -> list[str]:
    """The differences: their runs, and the table by column."""
    count = len(comparison.runs)
    runs = '<div id="runs"></div>\n' if count else "<p>None beyond the tolerances.</p>\n"
    if count > MOST_PICTURES:
        runs = f"<p>{count} runs, of which {MOST_PICTURES} are shown, each kind at least once.</p>\n{runs}"
    note = (
        "<p>A deviation is the recording's value less that of sdm, over the rows compared. A difference in a word has "
        "none, nor has a place on one side alone.</p>\n"
    )
    return [
        section("Runs of differences", runs),
        section("Differences by column", note + table(comparison.table(), "differences-table", head=True)),
    ]


def diagnosis_section(found: Diagnosis) -> str:
    """What explains the differences, as tools/diagnose prints it; what explains each run stands with its picture."""
    rules, numbers = found.tried
    note = f"<p>{rules} misreadings of the profile and {numbers} numbers were tried, alone and together.</p>\n"
    text = "\n".join(explanation_lines(found)) if found.runs else "nothing differs by more than the tolerances"
    return section("What explains the differences", f'{note}<pre id="diagnosis">{escape(text)}</pre>\n')


def report_of(
    title: str,
    source: Source,
    result: Result,
    ran: str,
    recorded: Recorded | None = None,
    link: str = "",
    diagnose: bool = False,
) -> Report:
    """The report of a run of an input, and of its comparison with a recording.

    `ran` says what wrote the rows, `link` is HTML that leads back to an overview, and `diagnose` says whether what
    explains the differences is looked for. Raises Fault where the rows are
    not those of the input, the recording can't be compared, or d3 is missing."""
    rows = rows_of(result.rows)
    facts = table(run_facts(source, result, ran, recorded), "facts") + mapping_text(recorded)
    about_it = f'<p>Made by sdm {version()}; <a href="#facts">what was run</a>, with digests.</p>\n'
    head = [link, about_it, f'<p class="outcome" id="outcome">{escape(outcome_of(result))}</p>\n']
    about = [section("What was run", facts), findings_section(source, result)]
    if not rows:
        if recorded is not None:
            raise Fault(f"There is nothing to compare: no rows. {outcome_of(result)}")
        return Report(page(title, head + about + ["<p>There are no rows to draw.</p>\n"]))
    told = Told(source.data)
    data: Json = {"journey": journey_json(told, rows) | {"shades": shades()}}
    statistics = section("The journey in numbers", table(journey_table(told.readings, rows), "statistics"))
    if len(data["journey"]["differs"]) > 0:
        head.append(f'<p class="bad">{others(data["journey"]["differs"])}</p>\n')
    between: list[str] = []
    if recorded is not None:
        mapping = recorded.mapping.data if recorded.mapping else None
        lines = recording_of(recorded.recording.data, mapping)
        comparison = Comparison(source.data, rows, lines, recorded.allowed)
        if diagnose:
            found = diagnosis_of(source.data, rows, lines, recorded.allowed)
            comparison.explain_by(found)
            between = [diagnosis_section(found)]
        data["comparison"] = comparison.json()
        head.append(f'<p class="outcome" id="compared">{escape(comparison.outcome())}</p>\n')
        between += comparison_sections(comparison)
    plot = plot_section(len(rows), recorded is not None)
    return Report(page(title, [*head, plot, *between, statistics, *about], data))


def others(numbers: Sequence[int]) -> str:
    """That the model has other rows, and which."""
    shown = ", ".join(str(n + 1) for n in numbers[:10]) + (" ..." if numbers[10:] else "")
    return f"Rows that the model has otherwise ({len(numbers)}): {shown}"
