"""Lists the files that must be believed for a contract to be worth something, by what is claimed: for each command of
the program, for callers of the supervisor from Rattle, and for callers from C. It follows names from the clauses of
the claim over every definition and type that they reach. A definition by equations over the commands counts for a
command with its own equations alone.

    scripts/house show believed             prints the tables of docs/BELIEVED.md
    scripts/house write believed            puts them between their marks there
    scripts/house show believed of CLAIM    prints the definitions that count for a claim, by file: run, live, ..,
                                            supervisor, C or calls
    scripts/house check believed            fails where the tables of the page are stale
"""
from __future__ import annotations

import re
from collections import defaultdict
from collections.abc import Iterable
from dataclasses import dataclass, field
from functools import cached_property
from pathlib import Path

from scripts.pages import specs
from scripts.pages.citations import Contract, Graph, blanked, imported
from scripts.pages.part import Part
from scripts.pages.specs import CRATES, ROOT

PART = Part(
    "believed",
    ROOT / "docs" / "BELIEVED.md",
    "<!-- The tables from here on are written by scripts/house write believed. -->",
    "<!-- The tables end here. -->",
    "scripts/house write believed",
)

COMMANDS = {
    "run": "Run",
    "display": "Display",
    "why": "Why",
    "flat": "Flat",
    "trial": "Trial",
    "upgrade": "Upgrade",
    "drive": "Drive",
    "certify": "Certify",
    "check": "Check",
}  # each with its constructor in the definitions
COMMAND = (CRATES / "sdm_run" / "src" / "words.rt", "Command")
MEANINGS = ("Value", "view")  # the ghost members that say what a value of a type is
Key = tuple[Path, str]


@dataclass(frozen=True)
class Claim:
    """What someone relies on: the calls, as (crate, owner, name), whose clauses count; the owners, as (crate, name),
    all of whose clauses do; the types whose values the clauses speak of; and the files that are read for these, each
    with what counts in it. Of the commands that read their input whole it speaks of one alone, by its constructor."""

    name: str
    calls: list[tuple[str, str, str]]
    edge: list[tuple[str, str]]
    owners: list[tuple[str, str]] = field(default_factory=list)
    values: list[tuple[str, str]] = field(default_factory=list)
    command: str = ""
    is_word: bool = False  # its name is a word of the program


CODE = ("sdm_report", "Outcome", "code")
STREAMS = [("sdm_io", "Source"), ("sdm_io", "Sink")]
MAIN_EDGE = [
    ("sdm_report/src/outcome.rt", "outcomes, and the clause of `Outcome::code`"),
    ("sdm_io/src/sources.rt", "what a source promises"),
    ("sdm_io/src/sinks.rt", "what a sink promises"),
    ("sdm_io/src/standard.rt", "the adapters over the standard streams: code that is trusted"),
    ("sdm/src/main.rt", "`main`: code that is trusted"),
]


def of_program(name: str, command: str) -> Claim:
    """What the program, or one of its commands that read their input whole, does for the bytes of its input."""
    return Claim(
        name,
        command=command,
        calls=[("sdm_run", "", "sdm_main"), CODE],
        owners=STREAMS,
        edge=[("sdm_run/src/answers.rt", "the clauses of `sdm_main`; its body is proved"), *MAIN_EDGE],
        is_word=bool(command),
    )


def of_texts(name: str) -> Claim:
    """What the program says of itself."""
    return Claim(
        name,
        calls=[("sdm_words", "", "asked_of"), ("sdm_words", "", "tell_about"), ("sdm_run", "", "told"), CODE],
        owners=STREAMS,
        edge=[
            ("sdm_words/src/asked.rt", "the clause of `asked_of`"),
            ("sdm_words/src/about.rt", "the clauses of `tell_about`"),
            ("sdm_run/src/answers.rt", "the clauses of `told`"),
            *MAIN_EDGE,
        ],
        is_word=True,
    )


PROGRAM = of_program("any command", "")

LIVE = Claim(
    "live",
    command="Run",  # whose text its rows are
    calls=[
        ("sdm_words", "", "asked_of"),
        ("sdm_live_run", "", "sdm_live_main"),
        *(("sdm_live_run", "StreamPeer", name) for name in ("new", "ask", "hand", "flush")),
        CODE,
    ],
    owners=[*STREAMS, ("sdm_live", "Peer")],
    edge=[
        ("sdm_words/src/asked.rt", "the clause of `asked_of`"),
        ("sdm_live_run/src/live_run.rt", "the clauses of `sdm_live_main`; its body is proved"),
        ("sdm_live/src/peers.rt", "what a peer promises"),
        (
            "sdm_live_run/src/streams.rt",
            "the peer over two streams: that it tells no history, and the clauses of its calls",
        ),
        *MAIN_EDGE,
    ],
    is_word=True,
)

SUPERVISOR = Claim(
    "supervisor",
    calls=[
        ("sdm_supervisor", "Supervisor", name)
        for name in (
            "begin",
            "cycle",
            "authority",
            "release_for",
            "calculated_stop",
            "restrict",
            "revoke",
            "take_over",
            "is_fresh",
            "within_svl",
            "has_trip_place",
            "clear_of",
        )
    ]
    + [
        ("sdm_supervisor", "Allowance", "new"),
        ("sdm_display", "", "display_of"),
        ("sdm_num", "Reading", "new"),
        ("sdm_train", "Train", "new"),
        ("sdm_national", "National", "new"),
        ("sdm_track", "Track", "new"),
    ],
    values=[
        ("sdm_supervisor", "Supervisor"),
        ("sdm_supervisor", "Allowance"),
        ("sdm_num", "Reading"),
        ("sdm_num", "Place"),
        ("sdm_num", "Speed"),
        ("sdm_train", "Train"),
        ("sdm_national", "National"),
        ("sdm_track", "Track"),
    ],
    edge=[
        (
            "sdm_supervisor/src/supervisors.rt",
            "the value of a `Supervisor`; the clauses of `begin`, `cycle`, `authority`, `release_for`, "
            "`calculated_stop`, `restrict`, `revoke`",
        ),
        ("sdm_supervisor/src/supervisors/take_over.rt", "the clauses of `take_over`, `is_fresh`"),
        ("sdm_supervisor/src/supervisors/within.rt", "the clause of `within_svl`"),
        ("sdm_supervisor/src/supervisors/trips.rt", "the clauses of `has_trip_place`"),
        ("sdm_supervisor/src/supervisors/clear.rt", "the clauses of `clear_of`"),
        ("sdm_supervisor/src/allowances.rt", "the value of an `Allowance`, and the clause of `Allowance::new`"),
        ("sdm_display/src/displays.rt", "the clause of `display_of`"),
        ("sdm_num/src/readings.rt", "the value of a `Reading`, and the clause of `Reading::new`"),
        ("sdm_num/src/places.rt", "the value of a `Place`"),
        ("sdm_num/src/speeds.rt", "the value of a `Speed`"),
        ("sdm_train/src/trains.rt", "the value of a `Train`, and the clauses of `Train::new`"),
        ("sdm_national/src/values.rt", "the value of a `National`, and the clauses of `National::new`"),
        ("sdm_track/src/tracks.rt", "the value of a `Track`, and the clauses of `Track::new`"),
    ],
)

C = Claim(
    "C",
    calls=[
        ("sdm_c", "", name)
        for name in (
            "sdm_layout",
            "sdm_open",
            "sdm_cycle",
            "sdm_end",
            "sdm_end_calculated",
            "sdm_limit",
            "sdm_restrict",
            "sdm_revoke",
            "sdm_take_over",
            "sdm_display",
            "sdm_causes",
            "sdm_would_cover",
            "sdm_would_cover_up_to",
            "sdm_has_trip_place",
            "sdm_clear_of",
            "sdm_close",
        )
    ],
    edge=[
        ("sdm_c/src/lib.rt", "the clauses of each call; their bodies are proved"),
        ("sdm_c/src/structs.rt", "the structs as C has them: their layout is trusted"),
        ("sdm_c/src/handle.rt", "the value of a handle"),
        ("../c/sdm.h", "the header: that it says what the source says is trusted, and tested from C"),
        ("../c/heap.h", "what the heap promises: code of the caller, which is trusted"),
    ],
)

EXPORTS = ["sdm_calls_layout", "sdm_calls_into"]
EXPORTS += [f"sdm_calls_live_{name}" for name in ("open", "feed", "end", "close")]
CALLS = Claim(
    "calls",
    calls=[("sdm_calls", "", name) for name in EXPORTS] + [CODE],
    edge=[
        ("sdm_calls/src/lib.rt", "the clauses of each call; their bodies are proved"),
        ("sdm_calls/src/endings.rt", "the struct as C has it: its layout is trusted"),
        ("sdm_calls/src/sessions.rt", "the value of a session"),
        ("sdm_calls/src/live_handles.rt", "the value of a handle of a session"),
        ("../c/sdm_calls.h", "the header: that it says what the source says is trusted, and tested from C"),
        ("../c/sdm_calls.c", "what stands between header and crate: trusted, and tested"),
        ("../c/heap.h", "what the heap promises: code of the caller, which is trusted"),
    ],
)

CLAIMS = [
    *(of_program(name, command) for name, command in COMMANDS.items()),
    LIVE,
    of_texts("version"),
    of_texts("help"),
    SUPERVISOR,
    C,
    CALLS,
]


def counts(claim: Claim, contract: Contract) -> bool:
    """Whether what a contract names counts for a claim."""
    owner = (contract.crate(), contract.owner)
    if not contract.is_function():
        return owner in claim.values and contract.name in MEANINGS
    return owner in claim.owners or (*owner, contract.name) in claim.calls


def of_another(command: str, text: str) -> bool:
    """Whether a clause is that of another command, which it names."""
    found = re.search(r"\bCommand\.(\w+)", text)
    return bool(command and found and found[1] != command)


def equations_of(text: str, name: str, command: str, constructors: Iterable[str]) -> str:
    """The text of a definition without its equations over other commands."""
    others = "|".join(each for each in constructors if each != command)
    return re.sub(rf"^{re.escape(name)} \(?(?:{others})\b.*\n?(?:^[ \t].*\n?)*", "", text, flags=re.M)


def reached(graph: Graph, claim: Claim) -> set[Key]:
    """Everything that the clauses of a claim name, and what that names in turn: definitions and types."""
    found: set[Key] = set()
    for contract in graph.contracts:
        if counts(claim, contract):
            named = graph.cited_by_contract(contract).items()
            found |= {key for key, clauses in named if not all(of_another(claim.command, text) for _, text in clauses)}
    open_keys = list(found)
    while open_keys:
        for other in cited_for(graph, claim, open_keys.pop()) - found:
            found.add(other)
            open_keys.append(other)
    return found


def cited_for(graph: Graph, claim: Claim, key: Key) -> set[Key]:
    """What a definition names; for a command, by the equations of its own."""
    definition = graph.definitions.get(key)
    if not definition or not claim.command:
        return set(graph.below.get(key, ()))
    text = blanked(definition.text, "--")
    names, _ = imported(key[0])
    constructors = [each for each in COMMANDS.values() if names.get(each) == COMMAND]
    return graph.resolved(equations_of(text, key[1], claim.command, constructors) if constructors else text, key[0])


def reached_by_file(graph: Graph, claim: Claim = PROGRAM) -> dict[Path, set[str]]:
    """file -> the names of it that a claim reaches."""
    found = defaultdict(set)
    for path, name in reached(graph, claim):
        found[path].add(name)
    return found


def lines_of(path: Path) -> int:
    return len(path.read_text().splitlines())


class Believed:
    """What must be believed for each claim."""

    def __init__(self) -> None:
        self.graph = Graph()
        self.reached = {claim.name: reached_by_file(self.graph, claim) for claim in [PROGRAM, *CLAIMS]}

    @cached_property
    def spec_files(self) -> list[Path]:
        """The spec files of which some definition counts for some claim."""
        return [path for path in specs.all_spec_files() if any(self.counted(claim, path) for claim in CLAIMS)]

    def counted(self, claim: Claim, path: Path) -> list[str]:
        """The definitions of a file that count for a claim."""
        return [each.name for each in specs.definitions(path) if each.name in self.reached[claim.name].get(path, ())]

    def type_files(self, claim: Claim) -> list[Path]:
        """The source files that declare types and constants of the definitions, except those of the edge."""
        edge = {CRATES / path for path, _ in claim.edge}
        return [
            path
            for path in sorted(self.reached[claim.name])
            if path.suffix == ".rt" and path.exists() and path not in edge
        ]

    def toolchain(self, claim: Claim) -> list[str]:
        """The modules of the toolchain's library that the definitions of a claim stand on."""
        paths = self.reached[claim.name]
        return sorted(
            path.relative_to(CRATES).with_suffix("").as_posix()
            for path in paths
            if CRATES in path.parents and not path.exists()
        )

    def definition_lines(self, claim: Claim) -> int:
        """The lines of the definitions that count for a claim, with their comments."""
        counted = {(path, name) for path in self.spec_files for name in self.counted(claim, path)}
        return sum(lines_with_comment(self.graph.definitions[key]) for key in counted)

    def summary(self, claim: Claim) -> str:
        """The line of a claim in the first table."""
        edge = [CRATES / path for path, _ in claim.edge]
        definitions = [path for path in self.spec_files if self.counted(claim, path)]
        types = self.type_files(claim)
        cells = [f"{len(paths)}: {sum(map(lines_of, paths)):,}" for paths in (edge, definitions, types)]
        names = sum(len(self.counted(claim, path)) for path in definitions)
        files = len(edge) + len(definitions) + len(types)
        counted = f"{names}: {self.definition_lines(claim):,}"
        return f"| {shown(claim)} | {files} | {cells[0]} | {cells[1]} | {counted} | {cells[2]} |"

    def definition_row(self, path: Path) -> str:
        """The line of a spec file: how many of its definitions count for each claim."""
        whole = len(specs.definitions(path))
        cells = [len(self.counted(claim, path)) for claim in CLAIMS]
        return row(path, ["all" if count == whole else f"{count} of {whole}" if count else "" for count in cells])

    def type_row(self, path: Path) -> str:
        """The line of a source file: how many of its types count for each claim."""
        cells = [len(self.reached[claim.name][path]) if path in self.type_files(claim) else 0 for claim in CLAIMS]
        return row(path, [str(count) if count else "" for count in cells])

    def listed(self) -> str:
        """The tables in Markdown."""
        heads = f"| File | Lines | {' | '.join(shown(claim) for claim in CLAIMS)} |\n|---|---|{'---|' * len(CLAIMS)}"
        types = sorted({path for claim in CLAIMS for path in self.type_files(claim)})
        out = ["", "## By claim", ""]
        out += [
            "| Claim | Files | Edge, files: lines | Specs, files: lines | Definitions that count: their lines "
            "| Types, files: lines |"
        ]
        out += ["|---|---|---|---|---|---|", *map(self.summary, [PROGRAM, *CLAIMS])]
        out += ["", "## Clauses and code of the edge"]
        edges = {
            "Every command that reads its input whole": PROGRAM,
            "`live`": LIVE,
            "`version` and `help`": of_texts("version"),
            "From Rattle": SUPERVISOR,
            "From C": C,
            "Each command as a call": CALLS,
        }
        for title, claim in edges.items():
            out += ["", f"**{title}**", "", "| File | Lines | What counts in it |", "|---|---|---|"]
            out += [f"| `{file_of(path)}` | {lines_of(CRATES / path)} | {what} |" for path, what in claim.edge]
        out += ["", "## Definitions that the clauses reach", "", heads, *map(self.definition_row, self.spec_files)]
        out += ["", "## Types and constants that the definitions speak of", "", heads, *map(self.type_row, types)]
        modules = sorted({module for claim in CLAIMS for module in self.toolchain(claim)})
        out += ["", "## The toolchain's library", "", "The definitions stand on these modules:", ""]
        out += [
            f"- `{each}`: {', '.join(claim.name for claim in CLAIMS if each in self.toolchain(claim))}"
            for each in modules
        ]
        return "\n".join([*out, ""]) + "\n"

    def names(self, claim: Claim) -> str:
        """The definitions that count for a claim, by file."""
        files = [(path, self.counted(claim, path)) for path in self.spec_files]
        return "\n".join(f"{path.relative_to(ROOT)}: {', '.join(counted)}" for path, counted in files if counted) + "\n"


def lines_with_comment(definition: specs.Definition) -> int:
    """The lines of a definition with the comment above it."""
    lines = definition.path.read_text().splitlines()
    first = definition.line - 1
    while first > 0 and lines[first - 1].strip().startswith("--"):
        first -= 1
    return definition.line - 1 - first + len(definition.text.rstrip().splitlines())


def shown(claim: Claim) -> str:
    """A claim as the tables name it."""
    return f"`{claim.name}`" if claim.is_word else claim.name


def file_of(path: str) -> str:
    """A file of an edge from the top of the repository."""
    return path.removeprefix("../") if path.startswith("../") else f"crates/{path}"


def row(path: Path, cells: list[str]) -> str:
    """A line of a table of files and claims."""
    return f"| `{path.relative_to(CRATES).as_posix()}` | {lines_of(path)} | {' | '.join(cells)} |"


def main(words: list[str]) -> int:
    believed = Believed()
    asked = [claim for claim in CLAIMS if words == ["of", claim.name]]
    if asked:
        print(believed.names(asked[0]), end="")
        return 0
    return PART.main(words, believed.listed(), [])
