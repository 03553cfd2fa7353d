"""Writes the manual: the parts of docs/sdm.1 that docs/commands.toml has, docs/sdm.h.3 and docs/sdm_calls.h.3 from the
headers of c/, and the texts of `sdm version` and `sdm help`; the version of all from CHANGELOG.md, the toolchain's line
from README.md.

    scripts/house show manual help    prints the commands, as `sdm help` prints them
    scripts/house write manual        writes the pages and the texts
    scripts/house check manual        fails where one is stale, or README.md has another version
"""
from __future__ import annotations

import re
import shutil
import subprocess
import sys
from dataclasses import dataclass
from pathlib import Path
from typing import Iterator

import tomllib

from scripts.c import header
from scripts.pages.part import Part, told
from scripts.pages.specs import ROOT

COMMANDS = ROOT / "docs" / "commands.toml"
PROGRAM_PAGE = ROOT / "docs" / "sdm.1"
TEXTS = ROOT / "crates" / "sdm_words" / "src" / "texts.rt"
TOOLCHAIN = re.compile(r"rattle-kit-\w+ logic [0-9a-f]+")
WRITER = "scripts/house write manual"
MARKUP = re.compile(r"`([^`]*)`|\b_([A-Z]+)_\b")
HELP_WIDTH = 22  # of the words of a command


@dataclass(frozen=True)
class Command:
    """A command of the program, as docs/commands.toml tells it."""

    name: str
    arguments: list[str]
    input: str  # what standard input brings, empty for none
    short: str
    long: str


@dataclass(frozen=True)
class HeaderPage:
    """What the page of a header of c/ tells beside the header's own text."""

    header: Path
    does: str
    package: str  # for pkg-config; the library's name without lib
    target: str  # of CMake
    calls: str  # what the texts of the calls have in common

    @property
    def path(self) -> Path:
        return ROOT / "docs" / f"{self.header.name}.3"


PAGES = [
    HeaderPage(
        header.HEADER,
        "ETCS speed and distance monitoring for C",
        "sdm",
        "sdm::sdm",
        "The text of each call ends with what it answers but SDM_DONE, in the order in which that is looked for.",
    ),
    HeaderPage(
        ROOT / "c" / "sdm_calls.h",
        "the commands of sdm as calls for C",
        "sdm-calls",
        "sdm::calls",
        "Each call but the first two and the last returns an enum sdm_code.",
    ),
]


def version() -> str:
    """The version: that of the first heading of CHANGELOG.md that has one."""
    return str(re.findall(r"^## \[(\d+\.\d+\.\d+)\]", (ROOT / "CHANGELOG.md").read_text(), re.M)[0])


def commands() -> list[Command]:
    """The commands, in their order."""
    return [
        Command(**{**each, "long": each["long"].strip()}) for each in tomllib.loads(COMMANDS.read_text())["command"]
    ]


# ---- roff


def escaped(text: str) -> str:
    """A text whose every sign stands for itself in roff."""
    text = text.replace("\\", "\\e").replace("-", "\\-").replace("^2", "\\(S2")
    return re.sub(r"^(?=[.'])", r"\\&", text, flags=re.M)


def marked(text: str) -> str:
    """A text with its marks as fonts."""
    parts, done = [], 0
    for found in MARKUP.finditer(text):
        font, inner = ("B", found[1]) if found[1] is not None else ("I", found[2])
        parts += [escaped(text[done : found.start()]), f"\\f{font}{escaped(inner)}\\fR"]
        done = found.end()
    return "".join([*parts, escaped(text[done:])])


def item(label: str, text: str) -> str:
    """A paragraph with a bold label."""
    return f".TP\n.B {escaped(label)}\n{marked(text.strip())}\n"


def title_of(page: str) -> str:
    """The first line of a page."""
    section, manual = (1, "User Commands") if page == "sdm" else (3, "Library Functions Manual")
    return f'.TH {page.upper()} {section} "" "sdm {version()}" "{manual}"\n'


def synopsis() -> Iterator[str]:
    """The lines of the synopsis of the program."""
    for number, command in enumerate(commands()):
        if number:
            yield ".br"
        yield f".B sdm {command.name}"
        if command.arguments:
            yield f".I {' '.join(command.arguments)}"
        if command.input:
            yield from ("<", f".I {command.input}")


def statuses() -> Iterator[str]:
    """The exit statuses, as paragraphs."""
    for each in tomllib.loads(COMMANDS.read_text())["status"]:
        yield item(str(each["code"]), each["means"])


def head_of_program_page() -> str:
    """docs/sdm.1 up to its synopsis."""
    summary = tomllib.loads(COMMANDS.read_text())["summary"]
    name = f".SH NAME\nsdm \\- {escaped(summary)}\n.SH SYNOPSIS\n"
    return title_of("sdm") + name + "".join(f"{line}\n" for line in synopsis())


def part_named(name: str) -> Part:
    """A part of docs/sdm.1, between its marks."""
    begin = f'.\\" {name}: written by {WRITER} from docs/commands.toml'
    return Part("manual", PROGRAM_PAGE, begin, f'.\\" {name}: end', WRITER)


def parts_of_program_page() -> list[tuple[Part, str]]:
    """The parts of docs/sdm.1 that are written, with their texts."""
    return [
        (part_named("title"), head_of_program_page()),
        (part_named("commands"), "".join(item(command.name, command.long) for command in commands())),
        (part_named("statuses"), "".join(statuses())),
    ]


# ---- the pages of the headers


def of_call(call: header.Call) -> str:
    """What the page says of a call."""
    return item(call.name + "()", call.comment)


def header_page(page: HeaderPage) -> str:
    """The page of a header."""
    text = page.header.read_text()
    calls = header.calls(text)
    prototypes = "".join(f"{escaped(call.prototype)}\n" for call in calls)
    types = "\n".join(f"{escaped(each)}\n" for each in header.types(text))
    package, name = escaped(page.package), page.header.name
    return "".join(
        [
            f'.\\" written by {WRITER} from c/{name}\n',
            title_of(name),
            f".SH NAME\n{name} \\- {page.does}\n",
            f".SH SYNOPSIS\n.nf\n.B #include <{name}>\n.PP\n{prototypes}.fi\n.PP\nLink with \\fB\\-l{package}\\fR; "
            f"\\fBpkg\\-config \\-\\-cflags \\-\\-libs {package}\\fR and CMake's \\fBfind_package(sdm)\\fR"
            f"{'' if page.package == 'sdm' else f' with its target {page.target}'} tell the words.\n",
            ".SH DESCRIPTION\n" + ".PP\n".join(f"{escaped(each)}\n" for each in header.opening(text)),
            f".SH CALLS\n{page.calls}\n",
            "".join(of_call(call) for call in calls),
            f".SH TYPES\n.nf\n{types}.fi\n",
            ".SH SEE ALSO\n.BR sdm (1);\n"
            "the page FROM-C, beside the other pages of a release, for the duties of the caller.\n",
        ]
    )


# ---- the words


def help_text() -> str:
    """What `sdm help` prints."""
    told_of = tomllib.loads(COMMANDS.read_text())
    lines = [f"sdm {version()}: {told_of['summary']}", ""]
    for command in commands():
        words = " ".join(["sdm", command.name, *command.arguments])
        given = f" < {command.input}" if command.input else ""
        lines.append(f"  {words + given:<{HELP_WIDTH + 8}}  {command.short}")
    return "\n".join([*lines, "", told_of["input"].strip(), told_of["units"].strip(), "", told_of["more"], ""])


def version_text() -> str:
    """What `sdm version` prints: the program's version, and the toolchain's line as README.md has it."""
    toolchain = TOOLCHAIN.search((ROOT / "README.md").read_text())
    return f"sdm {version()}\n{toolchain.group() if toolchain else ''}\n"


def source_of_texts() -> str:
    """The source with both texts."""
    texts = "".join(f'    "\\\n{text}",\n' for text in (version_text(), help_text()))
    return (
        f"//! The texts of `version` and `help`, written by {WRITER}.\n\n"
        "/// The text of `version`, and that of `help`: an array, since a clause can cite one.\n"
        f"pub const TEXTS: [&str; 2] = [\n{texts}];\n"
    )


def written_files() -> dict[Path, str]:
    """The files that are written whole, with their texts."""
    return {**{page.path: header_page(page) for page in PAGES}, TEXTS: source_of_texts()}


def faults_of_files() -> list[str]:
    """What is wrong with the files that are written whole."""
    return [
        f"{path.relative_to(ROOT)}: stale, run {WRITER}"
        for path, text in written_files().items()
        if not path.is_file() or path.read_text() != text
    ]


def faults_of_readme() -> list[str]:
    """Where README.md names another version."""
    named = re.search(r"^Version (\d+\.\d+\.\d+) ", (ROOT / "README.md").read_text(), re.M)
    return (
        [] if named and named[1] == version() else [f"README.md: it doesn't begin a line with `Version {version()} `"]
    )


def faults_of_groff() -> Iterator[str]:
    """What groff warns of in a page."""
    if not shutil.which("groff"):
        yield "groff is not installed; scripts/setup installs it"
        return
    for page in (PROGRAM_PAGE, *(page.path for page in PAGES)):
        words = ["groff", "-man", "-Tutf8", "-ww", "-z", str(page.relative_to(ROOT))]
        warnings = subprocess.run(words, cwd=ROOT, stdout=subprocess.PIPE, stderr=subprocess.STDOUT, text=True).stdout
        if warnings:
            yield f"{page.relative_to(ROOT)}: {warnings.strip()}"


def main(words: list[str]) -> int:
    if words == ["help"]:
        print(help_text(), end="")
        return 0
    if words == ["write"]:
        for part, text in parts_of_program_page():
            part.write(text)
        for path, text in written_files().items():
            path.write_text(text)
        return 0
    if words == ["check"]:
        parts = parts_of_program_page()
        faults = [fault for part, text in parts for fault in part.faults(text)]
        return told("manual", len(parts) + 6, faults + faults_of_files() + faults_of_readme() + [*faults_of_groff()])
    print(__doc__.strip(), file=sys.stderr)
    return 2
