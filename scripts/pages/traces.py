"""Writes docs/TRACES.md: for each sentence of README's promise, and each marked one of docs/PROMISES.md, its clauses
and laws, their definitions, cases that show these, the edits that break them with the clause that refuses
each, and the wrong definitions that were tried. scripts/traces.toml says which, by the ids of the marks `<!-- trace:
ID -->`; this script finds where each stands, and fails where one is gone. At the end it lists all edits by the clause
that their files name.

    scripts/house show traces     prints the page's part
    scripts/house write traces    puts it into docs/TRACES.md
    scripts/house check traces    fails where the page is stale, or a sentence has no trace
"""
from __future__ import annotations

import re
import sys
from dataclasses import dataclass, field
from functools import cached_property
from pathlib import Path

import tomllib

from scripts.editing.edits import Edit, all_edits
from scripts.editing.functions import clauses_of, line_at, named
from scripts.pages import specs
from scripts.pages.citations import Contract, Graph, blanked
from scripts.pages.links import anchors
from scripts.pages.part import Part
from scripts.pages.specs import CRATES, ROOT, Definition

PART = Part(
    "traces",
    ROOT / "docs" / "TRACES.md",
    "<!-- The traces from here on are written by scripts/house write traces. -->",
    "<!-- The traces end here. -->",
    "scripts/house write traces",
)
TABLE = ROOT / "scripts" / "traces.toml"
WRONG = ROOT / "docs" / "WRONG-DEFINITIONS.md"
PROMISES = ROOT / "docs" / "PROMISES.md"
MARK = re.compile(r"<!-- trace: ([\w, -]+) -->")
TO_TRACE = re.compile(r"\[([^\]]*)\]\(docs/TRACES\.md#(\d+)-readme\)")  # README's link to the trace of a sentence
SENTENCE_END = re.compile(r"[.!?][)*]* (?=[A-Z])")


@dataclass(frozen=True)
class Trace:
    """What scripts/traces.toml has of an id."""

    says: str
    clauses: list[str]
    laws: list[str] = field(default_factory=list)
    types: list[str] = field(default_factory=list)
    definitions: list[str] = field(default_factory=list)
    cases: list[str] = field(default_factory=list)
    edits: list[str] = field(default_factory=list)
    wrong: str = ""
    none: str = ""  # why there is no edit


class Gone(Exception):
    """Something that scripts/traces.toml names isn't there."""


def ids_in(line: str) -> list[str]:
    """The ids of a line's marks."""
    return [each.strip() for mark in MARK.findall(line) for each in mark.split(",")]


def promise_lines() -> list[str]:
    """The lines of README's promise that are or should be marked, one a sentence."""
    section = (ROOT / "README.md").read_text().partition("\n## The promise\n")[2].partition("\n## ")[0]
    return [line for line in section.splitlines() if ids_in(line) or line.startswith("- ")]


def promise() -> list[tuple[str, list[str]]]:
    """The sentences of README's promise, each with the ids of its marks, and their links as they are from docs/."""
    return [(from_docs(MARK.sub("", line).removeprefix("- ").strip()), ids_in(line)) for line in promise_lines()]


def link_faults() -> list[str]:
    """The sentences of README's promise that don't link to their own trace, or to another one too."""
    return [
        f"README.md: a sentence that doesn't link to trace {number} alone: {line[:50]}"
        for number, line in enumerate(promise_lines(), 1)
        if [to for _, to in TO_TRACE.findall(line)] != [str(number)]
    ]


def more_promised() -> list[tuple[str, list[str]]]:
    """The marked sentences of docs/PROMISES.md: each from the end of the sentence before it to its mark."""
    found = []
    for line in PROMISES.read_text().splitlines():
        for each in MARK.finditer(line):
            found.append((SENTENCE_END.split(line[: each.start()].strip())[-1], ids_in(each[0])))
    return found


def from_docs(sentence: str) -> str:
    """A sentence of README with its links as they are from docs/, and without that to its trace."""
    return re.sub(
        r"\]\((?![a-z]+:)(#|docs/)?",
        lambda found: {"#": "](../README.md#", "docs/": "]("}.get(found[1], "](../"),
        TO_TRACE.sub(r"\1", sentence),
    )


def link(text: str, path: Path, line: int = 0) -> str:
    """A link of docs/TRACES.md to a line of a file."""
    return f"[{text}](../{path.relative_to(ROOT).as_posix()}{f'#L{line}' if line else ''})"


def declared(name: str, file: str, pattern: str, comment: str) -> str:
    """The link to NAME in a file FILE of some crate; the form of the files and of the declaration is given."""
    stem, _, word = name.partition(".")
    for path in sorted(CRATES.glob(f"*/{file.format(stem)}")):
        text = blanked(path.read_text(), comment)
        found = re.search(pattern.format(word), text, re.M)
        if found:
            return link(f"`{name}`", path, text.count("\n", 0, found.start()) + 1)
    raise Gone(f"nothing declares {name}")


class Places:
    """Where clauses, definitions, cases and edits stand."""

    def __init__(self) -> None:
        self.graph = Graph()

    @cached_property
    def functions(self) -> dict[str, Contract]:
        """Each function by its name in marks."""
        return {named(each): each for each in self.graph.contracts if each.is_function()}

    @cached_property
    def edits(self) -> dict[str, Edit]:
        """Each edit by crate and name."""
        return {edit.name: edit for edit in all_edits()}

    def clause(self, name: str) -> str:
        """The link to a clause of a function, or to the function where it has one without a name."""
        function, _, clause = name.partition(" ")
        contract = self.functions.get(function)
        if not contract:
            raise Gone(f"no function {function}")
        lines = dict(clauses_of(contract))
        if clause and clause not in lines:
            raise Gone(f"{function} has no clause {clause}")
        shown = f"`{clause}` of `{function}`" if clause else f"`{function}`"
        return link(shown, contract.path, lines.get(clause, line_at(contract, contract.span[0])))

    def law(self, name: str) -> str:
        """The links to a law and to its statement."""
        contract = self.functions.get(name)
        if not contract:
            raise Gone(f"no law {name}")
        stated = sorted(
            key
            for key in self.graph.cited_by_contract(contract)
            if key in self.graph.definitions and key[1][:1].isupper()
        )
        statements = [link(f"`{key[1]}`", key[0], self.graph.definitions[key].line) for key in stated]
        return link(f"`{name}`", contract.path, line_at(contract, contract.span[0])) + (
            f": {', '.join(statements)}" if statements else ""
        )

    def definition(self, name: str) -> Definition:
        """The definition FILE.NAME, whose file stands in one crate."""
        stem, _, word = name.partition(".")
        found = [each for key, each in self.graph.definitions.items() if key[0].stem == stem and key[1] == word]
        if len(found) != 1:
            raise Gone(f"{len(found)} definitions {name}")
        return found[0]

    def case(self, name: str) -> str:
        """The link to a worked case FILE.NAME."""
        return declared(name, "proofs/{}.antt", r"^ *(?:pub )?{} :", "--")

    def type(self, name: str) -> str:
        """The link to a type FILE.NAME."""
        return declared(name, "src/{}.rt", r"^pub (?:enum|struct) {}\b", "//")

    def edit(self, name: str) -> str:
        """The link to an edit, and to the clause that refuses it."""
        edit = self.edits.get(name)
        if not edit or not edit.marked():
            raise Gone(f"no edit {name}" if not edit else f"{name} has no line `# refused-by:`")
        return f"{link(f'`{name}`', edit.path)}, refused by {self.clause(edit.marked())}"


def lines_of(trace: Trace, places: Places) -> list[str]:
    """The list of a trace."""
    out = [f"- Clause: {places.clause(name)}" for name in trace.clauses]
    out += [f"- Law: {places.law(name)}" for name in trace.laws]
    for name in trace.definitions:
        found = places.definition(name)
        out.append(
            f"- Definition: {link(f'`{found.name}`', found.path, found.line)}, {specs.meaning_of(found.comment)}"
        )
    out += [f"- Type: {places.type(name)}" for name in trace.types]
    out += [f"- Case: {places.case(name)}" for name in trace.cases]
    out += [f"- Edit: {places.edit(name)}" for name in trace.edits]
    out += [f"- No edit: {trace.none}"] if trace.none else []
    if trace.wrong:
        if trace.wrong not in anchors(WRONG):
            raise Gone(f"docs/WRONG-DEFINITIONS.md has no section {trace.wrong}")
        out.append(f"- Wrong definitions: [{trace.wrong.replace('-', ' ')}](WRONG-DEFINITIONS.md#{trace.wrong})")
    return out


def edits_by_clause(places: Places, faults: list[str]) -> list[str]:
    """The table of all edits whose files name what refuses them; a name of nothing is added to faults."""
    found: dict[str, list[str]] = {}
    unmarked = []
    for name, edit in places.edits.items():
        if edit.marked():
            found.setdefault(edit.marked(), []).append(link(f"`{edit.path.stem}`", edit.path))
        else:
            unmarked.append(link(f"`{name}`", edit.path))
    rows = []
    for clause, edits in found.items():
        try:
            rows.append(f"| {places.clause(clause)} | {', '.join(edits)} |")
        except Gone as gone:
            faults.append(f"crates/*/edits: refused-by: {gone}")
    ends = ["", f"The files of these name no clause: {', '.join(unmarked)}."] if unmarked else []
    return ["", "## Edits, by the clause that refuses them", "", "| Clause | Edits |", "|---|---|", *rows, *ends]


def listed(traces: dict[str, Trace], faults: list[str]) -> str:
    """The traces in Markdown, by sentences; what is wrong with them is added to faults."""
    places, out, seen = Places(), [], set()
    faults += link_faults()
    sentences = [("README", *each) for each in promise()] + [("PROMISES", *each) for each in more_promised()]
    for number, (page, sentence, ids) in enumerate(sentences, 1):
        out += ["", f"## {number}. {page}", "", f"> {sentence}"]
        faults += (
            [] if ids else [f"README.md: its promise has a sentence without `<!-- trace: ID -->`: {sentence[:50]}"]
        )
        for each in ids:
            if each not in traces:
                faults.append(f"README.md: scripts/traces.toml has no trace {each}")
                continue
            seen.add(each)
            try:
                out += ["", f"**{traces[each].says}**", "", *lines_of(traces[each], places)]
            except Gone as gone:
                faults.append(f"scripts/traces.toml: {each}: {gone}")
    faults += [f"scripts/traces.toml: no sentence has the mark {each}" for each in traces if each not in seen]
    out += edits_by_clause(places, faults)
    return "\n".join([*out, ""]) + "\n"


def main(words: list[str]) -> int:
    traces = {name: Trace(**fields) for name, fields in tomllib.loads(TABLE.read_text()).items()}
    faults: list[str] = []
    part = listed(traces, faults)
    if words != ["check"]:
        for fault in faults:
            print(fault, file=sys.stderr)
    return PART.main(words, part, faults)
