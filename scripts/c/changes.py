"""Holds replay, the C program over the static library, against changes of data: those of scripts/changes.txt, which
are worked by hand, and journeys over several data parts that are made from a seed, against the model. Where old and
new data agree on what counts, the built program must write the same rows over the later data alone.

    scripts/c/changes.py REPLAY                   both
    scripts/c/changes.py REPLAY --program PATH    another program than crates/sdm/out/sdm
"""
from __future__ import annotations

import argparse
import subprocess
import sys
import tempfile
from collections.abc import Iterator
from pathlib import Path

from scripts.product.worked import signs, text_of
from sdm.laboratory.cases import difference
from sdm.laboratory.piped import end
from sdm.laboratory.program import PATIENCE, Fault, Result, add_program, built, run
from sdm_evidence.makers.changes import Journey, document_of_the_last, events_by_the_last, is_that_of_the_last, make
from sdm_evidence.makers.journeys import record
from sdm_evidence.makers.toml_text import toml

TABLE = Path(__file__).resolve().parents[1] / "changes.txt"
MADE = 300
CHANGE_REFUSED = 9  # replay's exit status


def replayed(replay: Path, inputs: list[str]) -> Result:
    """What replay makes of inputs, one a data part."""
    with tempfile.TemporaryDirectory() as folder:
        files = [Path(folder) / str(count) for count in range(len(inputs))]
        for file, text in zip(files, inputs):
            file.write_text(text)
        with files[0].open("rb") as first:
            told = subprocess.run(
                [replay, "run", *files[1:]], stdin=first, capture_output=True, timeout=PATIENCE, check=False
            )
    return Result(told.stdout.decode(), told.stderr.decode(), told.returncode)


def is_same(name: str, names: tuple[str, str], due: Result, found: Result) -> bool:
    """Whether two results are the same; where they differ it is told."""
    if due == found:
        return True
    print("\n".join([name, *difference(names, due, found)]), flush=True)
    return False


def by_hand(replay: Path) -> Iterator[bool]:
    """How each line of the table came out."""
    for number, line in enumerate(TABLE.read_text().splitlines(), 1):
        if not line or line.startswith("#"):
            continue
        fields = [field.strip() for field in line.split(" | ")]
        if len(fields) != 7:
            raise Fault(f"changes.txt:{number} has {len(fields)} fields and not 7.")
        first, records, following, more, rows, code, told = fields
        inputs = [text_of(first) + "%%\n" + signs(records), text_of(following) + "%%\n" + signs(more)]
        due = Result(signs(rows), signs(told), int(code))
        yield is_same(f"changes.txt:{number}", ("by hand", "replay"), due, replayed(replay, inputs))


def is_as_one(program: Path, seed: int, journey: Journey, rows: str) -> bool:
    """Whether the program writes the same rows over the later data alone."""
    records = "".join(",".join(record(event)) + "\n" for event in events_by_the_last(journey))
    whole = toml(document_of_the_last(journey)) + "%%\n" + records
    found = run(program, ["run"], whole.encode())
    return is_same(f"changes of seed {seed}", ("replay", "program"), Result(rows, "", 0), found)


def made(replay: Path, program: Path) -> Iterator[tuple[bool, bool]]:
    """How each made journey came out, and whether its data agree on what counts."""
    for seed in range(MADE):
        journey = make(seed)
        rows = "".join(row for part in journey.parts for row in part.rows)
        found = replayed(replay, [part.text() for part in journey.parts])
        due = Result(rows, found.err, CHANGE_REFUSED if journey.refusal else 0)
        passed = is_same(f"changes of seed {seed}", ("model", "replay"), due, found)
        agree = is_that_of_the_last(journey)
        yield passed and (not agree or is_as_one(program, seed, journey, rows)), agree


def main(args: list[str]) -> int:
    parser = argparse.ArgumentParser(prog="scripts/c/changes.py", description=__doc__.split("\n\n")[0])
    parser.add_argument("replay", type=Path, metavar="REPLAY")
    add_program(parser)
    words = parser.parse_args(args)
    replay = words.replay.resolve()
    try:
        program = built(words.program)
        hand = list(by_hand(replay))
        found = list(made(replay, program))
    except (Fault, OSError, subprocess.SubprocessError) as why:
        print(f"against_changes: {why}", file=sys.stderr)
        return 1
    passed = [passed for passed, _ in found]
    print(f"changes of data by hand: {hand.count(True)} passed, {hand.count(False)} failed")
    agreed = sum(agree for _, agree in found)
    print(
        f"made changes of data, seeds 0 to {MADE - 1}: {passed.count(True)} as the model, "
        f"{passed.count(False)} differ; {agreed} as one supervisor of the later data"
    )
    return int(not all(hand) or not all(passed) or not hand)


if __name__ == "__main__":
    end(lambda: main(sys.argv[1:]))
