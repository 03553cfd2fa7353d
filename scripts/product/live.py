"""Tries the command `live`: its rows are those of `run`, in whatever pieces the bytes come, and each answer comes
before the next record. scripts/house check live says what is tried."""
from __future__ import annotations

import os
import random
import subprocess
import tempfile
import threading
from collections.abc import Iterator
from pathlib import Path
from typing import IO

from scripts.product.marks import program_of
from scripts.product.stored import FOLDERS, journeys_in
from sdm.laboratory.program import TOP, run

EXAMPLE = TOP / "examples" / "live"
PATIENCE = 60  # s, for one journey
LONGEST = 1024  # bytes of a line that is a record
SVL_MM = 1_000_000  # of the data of the clients, whose emergency_time holds their delays
SOME, MANY, AT_ONCE = 10_000, 2_000_000, 500  # records; those at once fit into a pipe with their answers
NEAR_KIB = 64  # how far apart the most memory after some and after many records may be


def answers(program: Path, pieces: Iterator[bytes]) -> bytes:
    """What `live` answers to bytes that come in pieces."""
    with subprocess.Popen([program, "live"], stdin=subprocess.PIPE, stdout=subprocess.PIPE) as live:
        assert live.stdin and live.stdout
        into = live.stdin

        def feed() -> None:
            with into:
                for piece in pieces:
                    into.write(piece)
                    into.flush()

        feeder = threading.Thread(target=feed)
        feeder.start()
        told = live.stdout.read()
        feeder.join(PATIENCE)
    return told


def cut(data: bytes, sizes: Iterator[int]) -> Iterator[bytes]:
    """The bytes in pieces of these sizes."""
    at = 0
    while at < len(data):
        size = next(sizes)
        yield data[at : at + size]
        at += size


def always(size: int) -> Iterator[int]:
    """The same size for each piece."""
    while True:
        yield size


def at_random(seed: int) -> Iterator[int]:
    """Sizes at random."""
    draw = random.Random(seed)
    while True:
        yield draw.randint(1, 200)


def rows_among(told: bytes) -> bytes:
    """The rows among answers."""
    kept = [line for line in told.splitlines(keepends=True) if line != b"taken\n" and not line.startswith(b"refused: ")]
    return b"".join(kept)


def tells_rows_of_run(program: Path) -> Iterator[str]:
    """The accepted journeys of `run` whose rows aren't those among the answers."""
    tried = 0
    for folder in FOLDERS:
        for case in journeys_in(folder):
            records = case.data.partition(b"\n%%")[2]
            if case.words != ["run"] or any(len(line) > LONGEST for line in records.splitlines()):
                continue
            due = run(program, ["run"], case.data)
            if due.code != 0:
                continue
            tried += 1
            if rows_among(answers(program, iter([case.data]))) != due.rows.encode():
                yield f"{case.name}: other rows than those of run"
    print(f"journeys of run: {tried}")
    if not tried:
        yield "no journey of run was tried"


def answers_any_pieces(program: Path) -> Iterator[str]:
    """The ways to cut the example into pieces that get other answers."""
    data, due = (EXAMPLE / "input").read_bytes(), (EXAMPLE / "rows").read_bytes()
    border = data.index(b"%%") + 1
    ways = {
        "one byte": cut(data, always(1)),
        "7 bytes": cut(data, always(7)),
        "4,096 bytes": cut(data, always(4096)),
        "within the dividing line": iter([data[:border], data[border:]]),
        **{f"random sizes of seed {seed}": cut(data, at_random(seed)) for seed in range(20)},
    }
    for name, pieces in ways.items():
        if answers(program, pieces) != due:
            yield f"pieces of {name}: other answers"


def answers_at_once(program: Path) -> Iterator[str]:
    """Whether a record of the example isn't answered before the next one is sent. A program that waits for more than a
    record would wait for ever, so it is ended after a while."""
    data, sep, records = (EXAMPLE / "input").read_bytes().partition(b"%%\n")
    due = (EXAMPLE / "rows").read_bytes().splitlines(keepends=True)
    with subprocess.Popen([program, "live"], stdin=subprocess.PIPE, stdout=subprocess.PIPE) as live:
        assert live.stdin and live.stdout
        alarm = threading.Timer(PATIENCE, live.kill)
        alarm.start()
        live.stdin.write(data + sep)
        number = 0
        for line in records.splitlines(keepends=True):
            live.stdin.write(line)
            live.stdin.flush()
            if line.strip() and live.stdout.readline() != due[number]:
                yield f"record {number + 1}: not answered as it is due before the next one came"
                break
            number += bool(line.strip())
        live.stdin.close()
        alarm.cancel()


def serves_clients(program: Path) -> Iterator[str]:
    """The clients of the example that get other rows than `run` writes for what they sent."""
    told = subprocess.run([EXAMPLE / "client.py", program], capture_output=True, text=True, timeout=PATIENCE)
    with tempfile.TemporaryDirectory() as scratch:
        client = Path(scratch) / "client"
        compiling = ["cc", "-std=c11", "-Wall", "-Wextra", "-Werror", "-o", str(client), str(EXAMPLE / "client.c")]
        subprocess.run(compiling, check=True)
        sent: list[bytes] = []
        with subprocess.Popen([program, "live"], stdin=subprocess.PIPE, stdout=subprocess.PIPE) as live:
            assert live.stdin and live.stdout
            words = [str(client), str(EXAMPLE / "data")]
            with subprocess.Popen(
                words, stdin=live.stdout, stdout=subprocess.PIPE, stderr=subprocess.PIPE, text=False
            ) as its:
                assert its.stdout and its.stderr
                for line in its.stdout:
                    sent.append(line)
                    live.stdin.write(line)
                    live.stdin.flush()
                live.stdin.close()
                shown = its.stderr.read().decode()
    *rows, stopped = shown.splitlines(keepends=True)
    due = run(program, ["run"], b"".join(sent))
    if due.code != 0 or not rows or "".join(rows) != due.rows:
        yield "client.c: other rows than run writes for its readings"
    if told.stdout != shown:
        yield "client.py: another journey than that of client.c"
    if not 0 < int(stopped.split()[2]) <= SVL_MM:
        yield f"client.c: {stopped.strip()}, past the SvL"


def most_resident_kib(process: subprocess.Popen[bytes]) -> int:
    """The most memory in KiB that a process had resident at once so far."""
    status = Path(f"/proc/{process.pid}/status").read_text()
    return next(int(line.split()[1]) for line in status.splitlines() if line.startswith("VmHWM:"))


def takes_no_more_memory(program: Path) -> Iterator[str]:
    """Whether many records take more memory than some: the process waits for more while its memory is looked at."""
    data = (EXAMPLE / "input").read_bytes().partition(b"%%\n")[0] + b"%%\n"
    most = []
    with subprocess.Popen([program, "live"], stdin=subprocess.PIPE, stdout=subprocess.PIPE) as live:
        assert live.stdin and live.stdout
        live.stdin.write(data)
        for first in range(0, MANY, AT_ONCE):
            readings = (b"read,%d,500000,500000,500000,10000,0,0\n" % ds for ds in range(first, first + AT_ONCE))
            live.stdin.write(b"".join(readings))
            live.stdin.flush()
            for _ in range(AT_ONCE):
                live.stdout.readline()
            if first + AT_ONCE in (SOME, MANY):
                most.append(most_resident_kib(live))
        live.stdin.close()
    print(f"most resident after {SOME:,} and after {MANY:,} records: {most[0]:,} and {most[1]:,} KiB")
    if most[1] - most[0] > NEAR_KIB:
        yield "the memory grows with the records"


def ends_by_its_streams(program: Path) -> Iterator[str]:
    """The faults of a stream that end it in another way than by their code and line: a folder can't be read, /dev/full
    takes nothing, and a reader that has gone takes no more."""
    data = (EXAMPLE / "input").read_bytes()
    with tempfile.TemporaryFile() as held, open("/dev/full", "wb") as full:
        held.write(data)
        folder = os.open(EXAMPLE, os.O_RDONLY)
        reading, gone = os.pipe()
        os.close(reading)
        ways: dict[str, tuple[IO[bytes] | int, IO[bytes] | int, int, bytes]] = {
            "a folder as its input": (folder, subprocess.PIPE, 2, b"sdm: read fault\n"),
            "a full device as its output": (held, full, 3, b"sdm: write fault\n"),
            "a reader that has gone": (held, gone, 3, b"sdm: write fault\n"),
        }
        for name, (into, out, code, line) in ways.items():
            held.seek(0)
            ended = subprocess.run([program, "live"], stdin=into, stdout=out, stderr=subprocess.PIPE, timeout=PATIENCE)
            if (ended.returncode, ended.stderr, ended.stdout or b"") != (code, line, b""):
                yield f"{name}: ended with {ended.returncode} and {ended.stderr!r}"
        os.close(folder)
        os.close(gone)


TRIES = [
    tells_rows_of_run,
    answers_any_pieces,
    answers_at_once,
    ends_by_its_streams,
    serves_clients,
    takes_no_more_memory,
]


def main(words: list[str]) -> int:
    program = program_of("live", words)
    faults: list[str] = next((faults for faults in (list(tries(program)) for tries in TRIES) if faults), [])
    for fault in faults:
        print(fault)
    print(f"live: {len(faults)} failed")
    return int(bool(faults))
