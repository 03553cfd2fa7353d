"""Fails each call of the built program in turn, over some journeys, and prints a table of what came out. It is no part
of the gate. docs/SAFETY.md says what it shows.

In turn each allocation is refused; each read of the input, each write of rows and each write of a fault's line fails,
moves one byte alone, and is interrupted. Rows are cut off after each of their bytes, or after some of them. Then the
system itself fails calls: by strace, a full device, a closed pipe, a folder as input and closed streams. Every run must
have ended as the clauses of `sdm_main` say; where one did not, that is told and the script fails."""
from __future__ import annotations

import argparse
import errno
import os
import shutil
import sys
import tempfile
from collections import Counter
from collections.abc import Sequence
from pathlib import Path

from scripts.tries import calls
from sdm.laboratory.program import Fault, add_program, built

TOOLS = ["cc", "strace"]

CUTS = 500  # at how many places rows are cut off at most

EXAMPLES = [
    "gradient-under-train",
    "realistic",
    "trial",
    "guidance",
    "refused-record",
    "refused-opening",
    "flat",
    "display",
    "causes",
    "upgrade",
    "drive",
    "certificate",
    "certificate-forged",
    "live",
]

# what is faulted, the call and its file, the kind of fault, its error, what it may change
IN_TURN = [
    ("allocation refused", "memory", 0, "fail", errno.ENOMEM, calls.memory_wanting),
    ("read fails", "read", 0, "fail", errno.EIO, calls.read_failed),
    ("read moves one byte", "read", 0, "short", 0, calls.unchanged),
    ("read interrupted", "read", 0, "interrupt", 0, calls.unchanged),
    ("write of rows fails", "write", 1, "fail", errno.ENOSPC, calls.write_failed),
    ("write of rows moves one byte", "write", 1, "short", 0, calls.unchanged),
    ("write of rows interrupted", "write", 1, "interrupt", 0, calls.unchanged),
    ("write of the line fails", "write", 2, "fail", errno.EIO, calls.line_failed),
    ("write of the line moves one byte", "write", 2, "short", 0, calls.unchanged),
    ("write of the line interrupted", "write", 2, "interrupt", 0, calls.unchanged),
]


class Table:
    """What was tried and how it ended, printed as Markdown; what was wrong is kept."""

    def __init__(self) -> None:
        self.wrong: list[str] = []
        self.calls = 0
        print("| Journey | Fault | Calls | Codes | Wrong |")
        print("|---|---|---:|---|---:|")

    def tell(self, journey: calls.Journey, fault: str, ends: Sequence[tuple[calls.Ended, str | None]]) -> None:
        """Prints a line for the ends of runs, each with what is wrong of it."""
        codes = Counter(ended.code for ended, _ in ends)
        wrong = [(ended, why) for ended, why in ends if why]
        self.calls += len(ends)
        self.wrong += [
            f"{journey.name}, {fault}, call {number}: {why}: {ended}"
            for number, (ended, why) in enumerate(ends, 1)
            if why
        ]
        told = ", ".join(f"{code}: {count:,}" for code, count in sorted(codes.items()))
        print(f"| {journey.name} | {fault} | {len(ends):,} | {told} | {len(wrong)} |", flush=True)


def fail_in_turn(program: Path, library: Path, journey: calls.Journey, table: Table, folder: Path) -> None:
    """Faults each call of a journey in turn, and then every read and write at once where only their sizes change."""
    made = calls.counts(program, library, journey, folder)
    for fault, call, file, kind, error, check in IN_TURN:
        count = made["memory" if call == "memory" else f"{call}{file}"]
        if not count:
            continue
        numbers = list(range(1, count + 1)) + ([0] if check is calls.unchanged else [])
        ends = []
        for number in numbers:
            ended = calls.run(
                program,
                journey.words,
                journey.given,
                {
                    "LD_PRELOAD": str(library),
                    "FAULT_CALL": call,
                    "FAULT_FILE": str(file),
                    "FAULT_KIND": kind,
                    "FAULT_ERROR": str(error),
                    "FAULT_AT": str(number),
                },
            )
            ends.append((ended, check(journey, ended)))
        table.tell(journey, fault, ends)


def cut_off(program: Path, library: Path, journey: calls.Journey, table: Table) -> None:
    """Cuts the rows of a journey off after some of their bytes: a write moves so many, and the next one fails."""
    length = len(journey.whole.out)
    ends = []
    for kept in range(1, length, max(1, length // CUTS)):
        ended = calls.run(
            program,
            journey.words,
            journey.given,
            {
                "LD_PRELOAD": str(library),
                "FAULT_CALL": "write",
                "FAULT_FILE": "1",
                "FAULT_KIND": "cut",
                "FAULT_ERROR": str(errno.ENOSPC),
                "FAULT_AT": str(kept),
            },
        )
        why = calls.write_failed(journey, ended)
        ends.append((ended, why or (None if len(ended.out) == kept else "out holds another count of bytes")))
    if ends:
        table.tell(journey, "rows cut off", ends)


def reads_of_libraries(program: Path, journey: calls.Journey, folder: Path) -> int:
    """How many reads the start of the process makes, before the first of the input: strace counts those too."""
    trace = folder / "reads"
    calls.run(program, journey.words, journey.given, before=["strace", "-o", str(trace), "-e", "trace=read"])
    reads = [line for line in trace.read_text().splitlines() if line.startswith("read(")]
    return sum(1 for line in reads if not line.startswith("read(0,"))


def fail_by_the_system(program: Path, journey: calls.Journey, table: Table, folder: Path) -> None:
    """Lets the system fail calls of a journey that reads and writes."""
    before = reads_of_libraries(program, journey, folder)

    def traced(inject: str) -> calls.Ended:
        trace = ["strace", "-o", "/dev/null", "-e", f"inject={inject}"]
        return calls.run(program, journey.words, journey.given, before=trace)

    for fault, inject, check in [
        ("strace: first read fails", f"read:error=EIO:when={before + 1}", calls.read_failed),
        ("strace: second read fails", f"read:error=EIO:when={before + 2}", calls.read_failed),
        ("strace: first read interrupted", f"read:error=EINTR:when={before + 1}", calls.unchanged),
        ("strace: nine reads interrupted", f"read:error=EINTR:when={before + 1}..{before + 9}", calls.unchanged),
        ("strace: first write fails", "write:error=ENOSPC:when=1", calls.write_failed),
        ("strace: first write interrupted", "write:error=EINTR:when=1", calls.unchanged),
        ("strace: nine writes interrupted", "write:error=EINTR:when=1..9", calls.unchanged),
    ]:
        ended = traced(inject)
        table.tell(journey, fault, [(ended, check(journey, ended))])

    reading, writing = os.pipe()
    os.close(reading)
    ended = calls.run(program, journey.words, journey.given, out=writing)
    os.close(writing)
    table.tell(journey, "a closed pipe", [(ended, calls.write_failed(journey, ended))])

    given = folder / "given"
    given.write_bytes(journey.given)
    for fault, streams, check in [
        ("a full device", '< "$given" > /dev/full', calls.write_failed),
        ("out closed", '< "$given" >&-', calls.write_failed),
        ("a folder as input", "< /", calls.read_failed),
        ("input closed", "<&-", calls.read_failed),
        ("err closed", '< "$given" 2>&-', calls.line_failed),
    ]:
        shell = ["bash", "-c", f'given=$1; shift; exec "$@" {streams}', "bash", str(given)]
        ended = calls.run(program, journey.words, b"", before=shell)
        table.tell(journey, fault, [(ended, check(journey, ended))])


def options(words: list[str]) -> argparse.Namespace:
    """What the command line asks for."""
    parser = argparse.ArgumentParser(description="Fails each call of the built program in turn.")
    add_program(parser)
    return parser.parse_args(words)


def main(words: list[str]) -> int:
    try:
        program = built(options(words).program)
    except Fault as why:
        sys.exit(f"try-faults: {why}")
    missing = [tool for tool in TOOLS if not shutil.which(tool)]
    if missing:
        sys.exit(f"try-faults: {', '.join(missing)} missing; `scripts/setup tools` installs them")
    table = Table()
    with tempfile.TemporaryDirectory() as scratch:
        folder = Path(scratch)
        library = calls.preload(folder)
        journeys = [calls.usage(), *map(calls.example, EXAMPLES), calls.thousand_rows(program)]
        for journey in journeys:
            ended = calls.run(program, journey.words, journey.given)
            table.tell(journey, "none", [(ended, calls.unchanged(journey, ended))])
            fail_in_turn(program, library, journey, table, folder)
            cut_off(program, library, journey, table)
        fail_by_the_system(program, journeys[-1], table, folder)
    print(f"\n{table.calls:,} runs, {len(table.wrong)} wrong")
    for wrong in table.wrong:
        print(f"WRONG: {wrong[:400]}")
    return int(bool(table.wrong))
