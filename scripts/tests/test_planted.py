"""Each check of the gate fails over a copy of the repository in which a fault is planted, and tells it."""
from __future__ import annotations

import os
from concurrent.futures import Future, ThreadPoolExecutor
from contextlib import contextmanager
from pathlib import Path
from typing import Iterator, NamedTuple

import pytest

from scripts.table import CHECKS
from scripts.tests import copies


class Fault(NamedTuple):
    """A text of a file, what is put in its place, and what the script must tell then."""

    file: str
    pattern: str
    new: str
    told: str


# What the copies for a check have of the repository: what it reads.
SPECS = ["docs", "scripts", "crates.txt", "crates/*/src/*", "crates/*/specs/*"]
PARTS: dict[str, list[str]] = {
    "believed": [*SPECS, "c/*.h", "c/sdm_calls.c"],
    "clauses": ["docs", "scripts"],
    "crates": ["docs", "scripts", "crates.txt"],
    "definitions": [*SPECS, "crates/*/proofs/*Cases.antt"],
    "imports": ["scripts", "python"],
    "interface": ["c/sdm.h", "c/ada/sdm.ads", "crates/sdm_c/src/*", "CHANGELOG.md", "scripts"],
    "laboratory": [
        "examples",
        "scripts",
        "tools",
        "python",
        "vectors",
    ],
    "links": [],  # all of it
    "manual": [
        "CHANGELOG.md",
        "README.md",
        "c/sdm.h",
        "c/sdm_calls.h",
        "docs/commands.toml",
        "docs/sdm.1",
        "docs/sdm.h.3",
        "docs/sdm_calls.h.3",
        "crates/sdm_words/src",
        "scripts",
    ],
    "pictures": [
        "README.md",
        "docs",
        "examples/approach",
        "examples/flat",
        "examples/interventions",
        "scripts",
        "tools",
        "python",
    ],
    "plot": ["examples", "scripts", "tools", "python"],
    "python": [".ci", "bench", "python", "scripts", "tools", "vectors/maker"],
    "questions": ["README.md", "*/README.md", "docs/*.md", "scripts"],
    "style": ["README.md", "docs", "scripts"],
    "traces": [*SPECS, "README.md", "crates/*/proofs/*Cases.antt", "crates/*/must-fail/*", "crates/*/edits/*"],
}

STALE = "stale, run scripts/"
DEFINITIONS, COMMANDS = "docs/DEFINITIONS.md", "crates/sdm_rules/specs/Commands.antt"
DATA, BROWSED = "docs/definitions.csv", "docs/definitions.html"
PLANTED = [
    # the check, and the faults that are planted at once
    ("believed", [Fault("docs/BELIEVED.md", r"^(\| `\S+/specs/\S+` \| )\d+", r"\g<1>7", STALE)]),
    ("believed", [Fault(COMMANDS, r"\Z", "-- one line more\n", STALE)]),
    ("clauses", [Fault("docs/SAFETY.md", r"^\| 3\.13\.10 .*\n", "", STALE)]),
    ("clauses", [Fault(DATA, r",as 3\.13\.10,", ",as 3.13.11,", STALE)]),
    ("crates", [Fault("crates.txt", "^sdm_limits: .*\n", "", STALE)]),
    ("crates", [Fault("docs/SAFETY.md", "`memchr`, ", "", "docs/SAFETY.md doesn't name memchr")]),
    (
        "crates",
        [
            Fault(
                "docs/ARCHITECTURE.md",
                r"^(\| `sdm_limits` \|)[^|]*\|$",
                r"\1  |",
                "says nothing of what sdm_limits does",
            )
        ],
    ),
    ("crates", [Fault("docs/ARCHITECTURE.md", r"^<!-- The table ends here. -->\n", "", "puts its part are gone")]),
    ("definitions", [Fault(DEFINITIONS, r"^(\| `\w+` .*\n)(\| `\w+` .*\n)", r"\2\1", STALE)]),
    ("definitions", [Fault(DATA, r"^(millimetre,.*,grains of a) milli", r"\1 centi", STALE)]),
    ("definitions", [Fault(BROWSED, r'"grains of a millimetre"', '"grains of a centimetre"', STALE)]),
    (
        "definitions",
        [
            Fault(DATA, r"^is_released,.*\n", "", "no row for is_released"),
            Fault(COMMANDS, r"^-- the last status was .*\n", "", "is_alarm has no comment"),
            Fault(COMMANDS, r"^(-- the traction cut-off: .*) \(SUBSET[^)]*\)$", r"\1", "cut_off_after has no source"),
            Fault(
                "scripts/shown-by.txt",
                " train_fault: sdm_library_tests::",
                " train_fault: sdm_run_tests::",
                "is no test of a function",
            ),
        ],
    ),
    (
        "imports",
        [
            Fault(
                "python/sdm/curves.py",
                "^from sdm.exact import",
                "from sdm_evidence.makers.line import a_run\nfrom sdm.exact import",
                "sdm.curves may not import sdm_evidence.makers.line",
            ),
            Fault(
                "python/sdm_evidence/model/flat.py",
                r"\Z",
                "import sdm.laboratory\n",
                "sdm_evidence.model.flat may not import sdm.laboratory",
            ),
            Fault(
                "python/sdm_evidence/model/units.py",
                r"\Z",
                "from sdm_evidence.makers import line\n",
                "sdm_evidence.model.units may not import sdm_evidence.makers",
            ),
            Fault(
                "python/sdm/sweeps.py",
                r"\Z",
                "from sdm.exact import Supervisor\n",
                "sdm.sweeps may not import sdm.exact",
            ),
            Fault("python/sdm/why.py", r"\Z", "from .rows import Row\n", "a relative import: .rows"),
            Fault("python/pyproject.toml", r'"sdm_evidence"', '"sdm_evidence.makers"', "all but the makers"),
            Fault("python/sdm/runs.py", r"\Z", "class Limit:\n    pass\n", "Limit is defined in sdm.records and in"),
        ],
    ),
    (
        "interface",
        [
            Fault(
                "crates/sdm_c/src/statuses.rt",
                r"(const FULL: u32) = 12",
                r"\1 = 13",
                "crates/sdm_c/src: the status full: 13, in c/sdm.h 12",
            ),
            Fault(
                "crates/sdm_c/src/codes.rt",
                "TargetKind::Eoa => 2",
                "TargetKind::Eoa => 3",
                "the code SDM_EOA: 3, in c/sdm.h 2",
            ),
            Fault(
                "crates/sdm_c/src/lib.rt",
                "eoa_cm: u32, svl_cm: u32, release",
                "svl_cm: u32, eoa_cm: u32, release",
                "crates/sdm_c/src: the call sdm_end: ",
            ),
            Fault(
                "c/ada/sdm.ads",
                "LOA_Cm, Speed_Kmh : Word",
                "Speed_Kmh, LOA_Cm : Word",
                "c/ada/sdm.ads: the call sdm_limit: ",
            ),
            Fault("c/ada/sdm.ads", "Tco, Sb, Eb", "Tco, Eb, Sb", "c/ada/sdm.ads: the fields of sdm_row: "),
            Fault(
                "crates/sdm_c/src/lib.rt",
                r"ensures before \{ before\.new ≡ before\.old \}",
                "",
                "crates/sdm_c/src: the call sdm_take_over: ",
            ),
            Fault(
                "c/sdm.h",
                r"const struct sdm_reading \*reading, struct sdm_row",
                "struct sdm_reading *reading, struct sdm_row",
                "the call sdm_cycle: ",
            ),
        ],
    ),
    (
        "laboratory",
        [
            Fault("python/sdm_evidence/model/flat.py", "front > end", "front >= end", "made: flat 10 51 "),
            Fault("vectors/maker/refusals.py", "comes before a missing", "comes first", "made: data 139 557 "),
            Fault("vectors/DIGESTS", r"\Z", "more 1 6 0\n", "vectors/DIGESTS has: more 1 6 0"),
        ],
    ),
    (
        "laboratory",
        [Fault("python/sdm/why.py", "The program's row is the same", "It is the same", "::test_the_program_s_row")],
    ),
    (
        "links",
        [
            Fault("docs/SAFETY.md", r"\(PROMISES\.md\)", "(PROMISE.md)", "PROMISE.md leads nowhere"),
            Fault(
                "docs/ASSUMPTIONS.md",
                "^## What `covered` promises",
                "## What a covered row promises",
                "has no such heading",
            ),
            Fault("c/onboard.c", r"if \(row->eb \|\|", "if (", "c/*.c has no such code: static struct orders"),
            Fault("README.md", "^5,T,X,1,1,1", "5,T,X,1,1,0", "has not the rows of examples/approach"),
            Fault(
                "examples/approach/input",
                "^read,50,900000,",
                "read,50,900001,",
                "has not the records of examples/approach",
            ),
            Fault(
                "examples/interventions/recording.csv",
                "^13000;",
                "13100;",
                "it doesn't show its output of tools/compare as it is",
            ),
            Fault(
                "docs/TRACES.md",
                r"supervisors\.rt#L\d+\)$",
                "supervisors.rt#L99999)",
                "supervisors.rt#L99999 has no such line",
            ),
        ],
    ),
    (
        "manual",
        [
            Fault("docs/commands.toml", "1 to 1000", "1 to 1001", STALE),
            Fault("c/sdm.h", "Judges a reading", "Takes a reading", "docs/sdm.h.3: stale"),
            Fault("crates/sdm_words/src/texts.rt", "made readings", "readings", "crates/sdm_words/src/texts.rt: stale"),
        ],
    ),
    (
        "manual",
        [
            Fault(
                "CHANGELOG.md",
                r"^## (?=\[\d)",
                "## [99.0.0]\n\n## ",
                "README.md: it doesn't begin a line with `Version 99.0.0 `",
            )
        ],
    ),
    ("manual", [Fault("docs/sdm.1", r"^\.SH DATA PART$", ".SH DATA PART\n.XY", "macro 'XY' not defined")]),
    (
        "pictures",
        [
            Fault(
                "examples/approach/rows",
                "^10,T,X,0,0,1,1,160,887500",
                "10,T,X,0,0,1,1,160,887000",
                "approach: the picture is stale",
            ),
            Fault("examples/flat/README.md", r"picture\.svg", "other.svg", "flat: its page doesn't show"),
        ],
    ),
    (
        "plot",
        [
            Fault(
                "examples/approach/rows",
                "^10,T,X,0,0,1,1,160,887500",
                "10,T,X,0,0,1,1,160,880000",
                "::test_its_marks_lie_in_their_places",
            ),
            Fault(
                "python/sdm/drawing/places.py",
                r"speed \(km/h\)",
                "speed (m/s)",
                "'<text>speed (km/h)</text>' not found",
            ),
            Fault(
                "examples/display/rows",
                "^760,72,",
                "760,73,",
                "::test_the_speeds_that_are_shown_lie_in_their_places",
            ),
            Fault(
                "examples/drive/input",
                "^emergency_time = 20$",
                "emergency_time = 21",
                "::test_the_true_train_lies_in_its_places",
            ),
            Fault(
                "examples/certificate-checked/input",
                "^mark,378",
                "mark,379",
                "::test_marks_and_ways_lie_in_their_places",
            ),
        ],
    ),
    (
        "style",
        [
            Fault("docs/SAFETY.md", "^(## What is claimed)$", r"\1\n\nA limit is told.", "'is told': write says"),
            Fault(
                "docs/SAFETY.md",
                "^(## What is not claimed)$",
                r"\1\n\n" + "A word " * 23 + "at last.",
                "48 words in a sentence: A word",
            ),
            Fault("docs/FORMATS.md", "^## Commands$", "## Commands of 0.12.1", "'0.12.1': only CHANGELOG.md"),
        ],
    ),
    (
        "style",
        [
            Fault(
                "docs/PROFILE.md", "^## Units$", "## Units\n\n" + "Some words. " * 46, "92 words in a paragraph: Some"
            ),
            Fault(
                "docs/CERTIFICATES.md",
                "^## Marks$",
                "## Marks\n\nWhere it holds, it stands.",
                "'Where it holds,': write if",
            ),
            Fault("docs/FROM-C.md", "^## Bounds$", "## Bounds\n\nAll but for one.", "'but for': write except, unless"),
            Fault("README.md", r"\Z", "\n" + "word " * 100, "README.md: "),
            Fault("docs/SAFETY.md", r"^(## What is claimed)$", "<" * 7 + r" HEAD\n\1", "a mark of a conflict"),
            Fault(
                "scripts/pages/part.py",
                "^import os$",
                "import os  # all but for one",
                "write except, unless, refused memory",
            ),
            Fault("docs/TOUR.md", "^For newcomers: after", "After", "docs/TOUR.md: its first line names no reader"),
        ],
    ),
    (
        "questions",
        [
            Fault(
                "docs/FORMATS.md",
                "^## How a run ends$",
                "## The end of a run",
                "docs/FORMATS.md#how-a-run-ends is nowhere",
            ),
            Fault("docs/TOUR.md", "is past P of the SvL", "is past it", "docs/TOUR.md#a-warning doesn't have"),
        ],
    ),
    (
        "questions",
        [
            Fault(
                "scripts/pages/questions.toml",
                '"bench/README.md#last-table", "smooth"',
                '"javascript/README.md#the-supervisor-of-sdm-for-javascript", "JavaScript"',
                "README doesn't lead to javascript/README.md by 2 links",
            )
        ],
    ),
    (
        "traces",
        [
            Fault("README.md", r" <!-- trace: ride, release-ride -->", "", "no sentence has the mark ride"),
            Fault("README.md", r"TRACES\.md#5-readme", "TRACES.md#6-readme", "doesn't link to trace 5 alone"),
            Fault(
                "scripts/traces.toml",
                r"law_of_release_speed",
                "law_of_speeds",
                "release-speed: no law sdm_laws::law_of_speeds",
            ),
            Fault(
                "scripts/traces.toml",
                r"Supervisor::cycle gaps",
                "Supervisor::cycle gap",
                "gaps: sdm_supervisor::Supervisor::cycle has no clause gap",
            ),
            Fault(
                "crates/sdm_ceiling/edits/ebi_margin_not_capped.edit",
                r"\A#.*\n",
                "",
                "ebi_margin_not_capped has no line",
            ),
            Fault(
                "crates/sdm_num/edits/passed_where_it_stands.edit",
                r"is_passed_by",
                "is_passed",
                "refused-by: no function sdm_num::Early::is_passed",
            ),
        ],
    ),
    ("traces", [Fault("crates/sdm_rules/specs/Stop.antt", r"\A", "-- one line more\n", STALE)]),
    (
        "python",
        [
            Fault(
                "python/sdm/why.py",
                r"^def section\(title: str",
                "def section(title: int",
                'Argument 1 to "section" has',
            ),
            Fault("python/sdm/curves.py", "^import csv$", "import csv\nimport os", "F401 'os' imported but unused"),
            Fault("scripts/python", r'dirname "(\$\{BASH_SOURCE\[0\]\})"', r"dirname \1", "SC2086"),
            Fault("tools/why", r"^command\(", "command( ", "black lays it out otherwise"),
        ],
    ),
]


@contextmanager
def copied(script: str) -> Iterator[Path]:
    """A copy for a check, in which vectors/make has no more groups than are altered."""
    with copies.a_copy(PARTS[script]) as top:
        if script == "laboratory":
            copies.keep_groups(top, "data", "flat")
        yield top


def tried(planted: tuple[str, list[Fault]]) -> tuple[int, str]:
    """How a check ends over a copy with faults."""
    script, faults = planted
    with copied(script) as top:
        for fault in faults:
            copies.alter(top, fault.file, fault.pattern, fault.new)
        return copies.ended(top, "scripts/house", "check", script)


@pytest.fixture(scope="module")
def ends() -> Iterator[list[Future[tuple[int, str]]]]:
    """How the checks end over their copies, tried side by side."""
    with ThreadPoolExecutor(len(os.sched_getaffinity(0))) as threads:
        yield [threads.submit(tried, planted) for planted in PLANTED]


EACH = [(number, script, fault) for number, (script, faults) in enumerate(PLANTED) for fault in faults]


@pytest.mark.parametrize(("number", "script", "fault"), EACH, ids=[f"{each[1]}: {each[2].file}" for each in EACH])
def test_a_fault_is_told(ends: list[Future[tuple[int, str]]], number: int, script: str, fault: Fault) -> None:
    status, told = ends[number].result()
    assert status == 1, told
    assert fault.told in told


# These are tried over a program or a library, by test_program.py and test_bounds.py, or by hand.
ELSEWHERE = set("model upgrade tour certificates compilers edits bounds worked examples live c library".split())
ELSEWHERE |= {"calls", "rides", "refused", "trials", "processors", "processors-all"}


def test_each_check_has_two_faults() -> None:
    names = {part.name for parts in CHECKS.values() for part in parts} - ELSEWHERE - {"scripts", "release"}
    few = {name for name in names if sum(len(faults) for script, faults in PLANTED if script == name) < 2}
    assert few == set()
