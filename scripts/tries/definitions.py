"""Tries wrong definitions: plants each in a copy, and fails where the case that its file names isn't refused.

    scripts/house try definitions                  tries the cheapest nine
    scripts/house try definitions --sample N       tries the cheapest N
    scripts/house try definitions --of CRATE..     tries those of definitions of these crates
    scripts/house try definitions --only TRIAL..   tries these, each as CRATE/NAME
    scripts/house try definitions --all            tries all

    --record    writes what came of each that is tried into docs/trials.csv
    --jobs N    so many at a time, 1 where it isn't said

A trial is a file crates/CRATE/wrong-definitions/NAME.trial. Its lines `file:`, `old:` and `new:` are those of an edit
(docs/EDITS.md), over a file of specs/. `# refused-by: CRATE FILE::CASE` names a case of proofs/FILE.antt of a crate. It
is checked with the case files that it needs and no others, over the sources of the crates between and the proved
libraries of those below: so the case refuses the text, and no law's proof does. `# refused-by: CRATE FUNCTION` names a
law, or another function, whose proof alone is checked over such sources."""
from __future__ import annotations

import argparse
import csv
import datetime
import os
import re
import subprocess
import sys
import tempfile
import time
from concurrent.futures import ThreadPoolExecutor
from dataclasses import dataclass
from pathlib import Path

from scripts.editing.edits import Edit, Unfit
from scripts.editing.provers import copied, libraries, reached, words
from scripts.pages.specs import CRATES, ROOT, crates

FOLDER, RECORD = "wrong-definitions", ROOT / "docs" / "trials.csv"
SAMPLE = 9
MOST_SECONDS = 900
CASE, LAW = re.compile(r"(\w+) (\w+)::(\S+)"), re.compile(r"(\w+) (\w+)")
LIBRARY = re.compile(r"^use Rattle\.(\w+)\.", re.M)
CODE = re.compile(r"^use (?!super|crate)\w+::", re.M)
IMPORT = r"^use Rattle\.{crate}\.proofs\.(\w+)"
REFUSED = re.compile(r"^(?:\./)?proofs/(\w+)\.antt:\d+:\d+: error: `([^`]+)`: (.*)$", re.M)
CITING = """
ghost use Rattle.std.specs.Prelude.{⊤};

fn cites_the_case()
    ensures { ⊤ }
{
}
"""
ANSWER = """use Rattle.{crate}.proofs.{file}.{{{case}}}
use Rattle.{crate}.proofs.cites_the_case.Goals as goal

pub returns : goal.returns
returns c = ⊤.tt
"""
ERROR = re.compile(r"^.*\berror\b.*$", re.M)
NAMES = re.compile(r"is not in scope|has no `|was not admitted|is no name|has no name|unknown name")
UNFIT = re.compile(r"^\S*specs/\S+\.antt:\d+:\d+: error: .*$", re.M)
ENDED = re.compile(r"^(?:holes=|logic=|only=)", re.M)


@dataclass(frozen=True)
class Case:
    """The case, or the law, that is to refuse a wrong definition."""

    crate: str
    file: str  # of a case; a law has none
    name: str


@dataclass(frozen=True)
class Verdict:
    """What came of a trial, and the seconds that it took."""

    trial: Edit
    is_refused: bool
    why: str
    seconds: float


def trials() -> list[Edit]:
    """All trials, by the crates of their definitions, lowest first."""
    return [Edit(crate, path) for crate in crates() for path in sorted((CRATES / crate / FOLDER).glob("*.trial"))]


def case_of(trial: Edit) -> Case:
    """What a trial's file names that refuses it."""
    marked = trial.marked()
    if (law := LAW.fullmatch(marked)) and law[1] in crates():
        return Case(law[1], "", law[2])
    case = CASE.fullmatch(marked)
    if not case or not (CRATES / case[1] / "proofs" / f"{case[2]}.antt").is_file():
        raise Unfit(f"`# refused-by:` names no case and no law: `{marked}`")
    return Case(*case.groups())


def used(case: Case) -> set[str]:
    """The crates that a case's files import, and those below these; of a law those below its crate."""
    if not case.file:
        return reached(case.crate)
    proofs = CRATES / case.crate / "proofs"
    texts = [(proofs / f"{name}.antt").read_text() for name in needed(CRATES / case.crate, case.file)]
    named = {name for text in texts for name in LIBRARY.findall(text)} & reached(case.crate)
    return named.union(*map(reached, named))


def has_code(crate: str) -> bool:
    """Whether the code of a crate uses others: the copy of such a crate is read whole."""
    return any(CODE.search(file.read_text()) for file in (CRATES / crate / "src").rglob("*.rt"))


def handed(case: Case) -> list[str]:
    """The libraries of a case's crate that its copy gets: all where the crate has code that uses them."""
    if has_code(case.crate):
        return libraries()[case.crate]
    return [name for name in libraries()[case.crate] if name in used(case)]


def between(trial: Edit, case: Case) -> list[str]:
    """The crates that come as sources: that of the definition, and those above it that what refuses it stands on."""
    return sorted(name for name in used(case) if trial.crate == name or trial.crate in reached(name))


def cost(trial: Edit) -> int:
    """What a trial costs, about: the lines of the crates that come as sources, and of a crate that is read whole."""
    case = case_of(trial)
    read = {*between(trial, case), *([case.crate] if has_code(case.crate) else [])}
    files = [file for name in read for file in (CRATES / name).rglob("*.antt")]
    return sum(file.stat().st_size for file in files)


# ---- one trial


def needed(crate: Path, file: str) -> set[str]:
    """The case files that one needs, itself among them."""
    found, open_ = set(), [file]
    while open_:
        name = open_.pop()
        if name not in found:
            found.add(name)
            text = (crate / "proofs" / f"{name}.antt").read_text()
            open_ += re.findall(IMPORT.format(crate=crate.name), text, re.M)
    return found


def leave(crate: Path, file: str) -> None:
    """Leaves of a copy's proofs only the case files that one needs."""
    kept = needed(crate, file)
    listed = crate / "proofs" / "Lib.antt"
    lines = [line for line in listed.read_text().splitlines() if line.split()[-1] in kept or "mod " not in line]
    listed.write_text("\n".join(lines) + "\n")
    for each in (crate / "proofs").rglob("*.antt"):
        if each != listed and each.relative_to(crate / "proofs").parts[0].removesuffix(".antt") not in kept:
            each.unlink()


def cite(crate: Path, case: Case) -> None:
    """Gives a copy a function whose proof cites a case: a check of it alone reads the case and what this needs."""
    root = crate / "src" / ("main.rt" if (crate / "src" / "main.rt").exists() else "lib.rt")
    root.write_text(root.read_text() + CITING)
    folder = crate / "proofs" / "cites_the_case"
    folder.mkdir()
    (folder / "Answers.antt").write_text(ANSWER.format(crate=crate.name, file=case.file, case=case.name))


def plant(trial: Edit, folder: Path) -> None:
    """Applies a trial to a copy of its crate; its files are of specs/."""
    if any(not change.file.startswith("specs/") for change in trial.changes):
        raise Unfit("it changes another file than one of specs/")
    for file, text in trial.applied(folder).items():
        (folder / file).write_text(text)


def said_of(trial: Edit, case: Case) -> str:
    """What the prover says of the case's file, with the definition's wrong text."""
    with tempfile.TemporaryDirectory(prefix="definition-") as name:
        room = Path(name)
        folder = copied(case.crate, room)
        if case.file:
            leave(folder, case.file)
            cite(folder, case)
        sources = {name: copied(name, room) for name in between(trial, case)}
        plant(trial, folder if trial.crate == case.crate else sources[trial.crate])
        command = words(case.crate, sources, handed(case))
        command += ["--only", "cites_the_case" if case.file else case.name]
        done = subprocess.run(
            command, cwd=folder, stdin=subprocess.DEVNULL, capture_output=True, text=True, timeout=MOST_SECONDS
        )
        return done.stdout + done.stderr


def judged(case: Case, said: str) -> tuple[bool, str]:
    """Whether a case or a law is refused for what it says, by what the prover says; and why, or why not."""
    if not ENDED.search(said):
        return False, f"the prover gave no verdict: {(ERROR.findall(said) or ['nothing'])[0][:200]}"
    if unfit := UNFIT.search(said):
        return False, f"the wrong text is none: {unfit[0][:200]}"
    if not case.file:
        return judged_law(case, said)
    refused = [(name, why) for file, name, why in REFUSED.findall(said) if file == case.file]
    whys = [why for name, why in refused if name == case.name]
    if not whys:
        others = ", ".join(dict.fromkeys(name for name, _ in refused)) or "nothing"
        return False, f"{case.name} isn't refused; of its file {others} is"
    if all(NAMES.search(why) for why in whys):
        return False, f"{case.name} is refused for a name alone: {whys[0][:160]}"
    return True, whys[0][:160]


def judged_law(case: Case, said: str) -> tuple[bool, str]:
    """The same of a law."""
    states = re.findall(rf"^fn \S*\b{case.name}: (.*)$", said, re.M)
    if not states:
        return False, f"the prover says nothing of {case.name}"
    return states[0].startswith(("not proved", "no proof")), states[0][:160]


def tried(trial: Edit) -> Verdict:
    """Tries a wrong definition, and tells what came of it."""
    begun = time.monotonic()
    try:
        case = case_of(trial)
        is_refused, why = judged(case, said_of(trial, case))
    except Unfit as unfit:
        is_refused, why = False, str(unfit)
    except subprocess.TimeoutExpired:
        is_refused, why = False, f"the prover took more than {MOST_SECONDS} s"
    verdict = Verdict(trial, is_refused, why, time.monotonic() - begun)
    print(f"{trial.name}: {'refused' if is_refused else 'NOT REFUSED'}: {why}; {verdict.seconds:.0f} s", flush=True)
    return verdict


# ---- all


def record(verdicts: list[Verdict]) -> None:
    """Writes what came of trials into the record of the last run of each, with the date and the commit."""
    told = subprocess.run(["git", "rev-parse", "--short=12", "HEAD"], cwd=ROOT, capture_output=True, text=True)
    last = {row[0]: row[1:] for row in recorded()}
    for each in verdicts:
        verdict = "yes" if each.is_refused else "no"
        last[each.trial.name] = [verdict, datetime.date.today().isoformat(), told.stdout.strip()]
    with RECORD.open("w", newline="") as file:
        rows = csv.writer(file, lineterminator="\n")
        rows.writerow(["trial", "refused", "date", "commit"])
        rows.writerows([trial.name, *last[trial.name]] for trial in trials() if trial.name in last)


def recorded() -> list[list[str]]:
    """The rows of the record, without its head."""
    return list(csv.reader(RECORD.read_text().splitlines()))[1:] if RECORD.exists() else []


def chosen(asked: argparse.Namespace) -> list[Edit]:
    """The trials that the words name."""
    every = {trial.name: trial for trial in trials()}
    unknown = [name for name in asked.only if name not in every] + [name for name in asked.of if name not in crates()]
    if unknown:
        sys.exit(f"definitions: there is no {', '.join(unknown)}")
    if asked.only:
        return [every[name] for name in asked.only]
    if asked.of or asked.all:
        return [trial for trial in every.values() if asked.all or trial.crate in asked.of]
    return sorted(every.values(), key=cost)[: asked.sample]


def build_libraries(asked: list[Edit]) -> None:
    """Brings the libraries below up to date, where `rt ci` didn't just leave them."""
    if os.environ.get("PROVED_BY_RT_CI"):
        return
    cases = [case_of(trial) for trial in asked]
    sources = {name for trial, case in zip(asked, cases) for name in between(trial, case)}
    below = {name for case in cases for name in reached(case.crate)} - sources
    for name in (name for name in crates() if name in below):
        if subprocess.run(["rt", "lib", "--jobs", "1"], cwd=CRATES / name, capture_output=True).returncode:
            sys.exit(f"definitions: {name} isn't proved, so no case above it is checked")


def main(arguments: list[str]) -> int:
    parser = argparse.ArgumentParser(
        prog="scripts/house try definitions", description=__doc__, formatter_class=argparse.RawDescriptionHelpFormatter
    )
    parser.add_argument("--sample", type=int, default=SAMPLE, metavar="N")
    parser.add_argument("--of", nargs="+", metavar="CRATE", default=[])
    parser.add_argument("--only", nargs="+", metavar="TRIAL", default=[])
    parser.add_argument("--all", action="store_true")
    parser.add_argument("--record", action="store_true")
    parser.add_argument("--jobs", type=int, default=1, metavar="N")
    asked = parser.parse_args(arguments)
    tries = chosen(asked)
    build_libraries(tries)
    with ThreadPoolExecutor(max(1, asked.jobs)) as threads:
        verdicts = list(threads.map(tried, tries))
    if asked.record:
        record(verdicts)
    refused = sum(each.is_refused for each in verdicts)
    print(f"definitions: {refused} refused, {len(verdicts) - refused} not refused")
    return int(refused < len(verdicts) or not verdicts)
