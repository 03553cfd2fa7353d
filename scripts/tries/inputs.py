"""Runs the built program over a hundred thousand inputs that a fixed seed makes from examples/ and from bytes at
random. It is no part of the gate.

Each run must end by itself within a second of the processor's time with one of the codes; out must be whole lines of
the command's form, and err empty or the one line of the code. An input that doesn't is kept in a folder, and the script
fails."""
from __future__ import annotations

import argparse
import os
import re
import sys
import tempfile
import threading
import time
from collections import Counter
from concurrent.futures import ThreadPoolExecutor
from dataclasses import dataclass
from pathlib import Path

from inputs import Numbers
from sdm.laboratory.program import Fault, add_program, built

ROOT = Path(__file__).resolve().parents[2]
MOST_BYTES = 16_777_216
SECONDS = 1.0  # the most of the processor's time that a run may take

# The ends of the ranges of docs/FORMATS.md, of the integers of TOML, and one past each.
ENDS = [
    0,
    1,
    5,
    8,
    20,
    50,
    80,
    100,
    300,
    400,
    500,
    512,
    800,
    1_000,
    10_000,
    65_535,
    100_000,
    138_888,
    150_000,
    10_000_000,
    100_000_000,
    110_000_000,
    2**31 - 1,
    2**31,
    2**32 - 1,
    2**32,
    10**17,
    10**18 - 1,
    2**63 - 1,
    2**63,
    2**64,
    10**19,
]

PIECES = [
    b'"',
    b"'",
    b"\r",
    b"\n",
    b"\r\n",
    b"\0",
    b",",
    b",,",
    b"%%",
    b"%%\n",
    b" ",
    b"\t",
    b"=",
    b"[",
    b"]",
    b"[[",
    b"]]",
    b"{",
    b"}",
    b"#",
    b".",
    b"-",
    b"+",
    b"_",
    b"1e5",
    b"0x",
    b"1.0",
    b"inf",
    b"true",
    b"false",
    b'"""',
    b"\xef\xbb\xbf",
    b"\xff",
    b"\xc3\x28",
    b"\xed\xa0\x80",
    b"read,",
    b"end,",
    b"endcalc,",
    b"limit,",
    b"restrict,",
    b"revoke,",
    b"[train]\n",
    b"\\u0000",
    b"1979-05-27T07:32:00Z",
]

ROWS = {
    "run": rb"(\d+,[CTR],[NIOWX],[01],[01],[01],[01],\d+(,(-?\d+|-)){5}\n)*",
    "display": rb"(\d+(,\d+){4},(-,-|[MLES],\d+)\n)*",
    "why": rb"(\d+(,(-|[a-z ]+|target [MLES]( -?\d+){3})){4}(,(off|set|held until [a-z ]+)){3}\n)*",
    "flat": rb"(\d+,-?\d+,[01],[01]\n)*",
    "trial": rb"(rows \d+\ncovered \d+\nemergency \d+\nservice \d+\nebi -?\d+\n)?",
    "certify": rb"(map(,\d+){3}\n(uppers(,\d+)+\n)?(seg,\d+(,\d+)+\n)+"
    rb"(claim,\d+,-?\d+(,\d+){7}\n(mark,-?\d+,\d+\n)+)*)?",
    "check": rb"(\d+,(yes|no)\n)*",
    "drive": rb"(cycles \d+\nemergency \d+\nstops \d+\nfront \d+\nleast \d+\n)?",
    "live": rb"((\d+,[CTR],[NIOWX],[01],[01],[01],[01],\d+(,(-?\d+|-)){5}|taken|refused: [^\n]+)\n)*",
    "version": rb"sdm \d+\.\d+\.\d+\n[^\n]+\n",
    "help": rb"sdm \d+\.\d+\.\d+: ([^\n]*\n)+",
    "upgrade": rb"(([a-z_]+ = (-?\d+|true|false|\"(end|limit)\")|\[[a-z]+\]|\[\[[a-z]+\.[a-z_]+\]\])?\n)*",
}

LINES = {
    0: rb"",
    1: rb"sdm: bad words\n",
    2: rb"sdm: read fault\n",
    3: rb"sdm: write fault\n",
    4: rb"sdm: input too long\n",
    5: rb"sdm: bad data: [^\n]+\n",
    6: rb"sdm: refused: [^\n]+\n",
    7: rb"sdm: bad event [1-9]\d*: [^\n]+\n",
    8: rb"sdm: no memory\n",
    9: rb"sdm: not drivable: [^\n]+\n",
}

WITH_ROWS = {0, 7}  # the codes after which out may hold rows, where no call fails


@dataclass(frozen=True)
class Given:
    """The words and the input of a run."""

    words: tuple[str, ...]
    given: bytes


def seeds() -> list[Given]:
    """The runs of examples/, and others of each command."""
    found = []
    for folder in sorted((ROOT / "examples").iterdir()):
        if (folder / "args").exists():
            words = tuple((folder / "args").read_text().split("\n")[:-1])
            found.append(Given(words, (folder / "input").read_bytes()))
    found.append(Given(("flat", "5", "0"), b"0,-10000000,138888\n100000000,110000000,0\n"))
    found.append(Given(("flat", "400", "10000000"), b"0,99999999,1\n0,100000000,0"))
    return found


# ---- one change of an input each


def cut(numbers: Numbers, given: bytes) -> bytes:
    """The bytes up to a place."""
    return given[: numbers.draw(0, len(given))]


def dropped(numbers: Numbers, given: bytes) -> bytes:
    """The bytes without a stretch of them."""
    start = numbers.draw(0, len(given))
    return given[:start] + given[start + numbers.draw(1, 40) :]


def byte_changed(numbers: Numbers, given: bytes) -> bytes:
    """The bytes with one of them another."""
    at = numbers.draw(0, max(len(given) - 1, 0))
    return given[:at] + bytes([numbers.draw(0, 255)]) + given[at + 1 :]


def piece_put_in(numbers: Numbers, given: bytes) -> bytes:
    """The bytes with a piece of syntax, or one byte, in them."""
    at = numbers.draw(0, len(given))
    return given[:at] + PIECES[numbers.draw(0, len(PIECES) - 1)] + given[at:]


def line_doubled(numbers: Numbers, given: bytes) -> bytes:
    """A line twice, or many times."""
    lines = given.splitlines(keepends=True) or [b"\n"]
    at = numbers.draw(0, len(lines) - 1)
    count = [2, 2, 2, 10, 100, 1_000][numbers.draw(0, 5)]
    return b"".join(lines[:at] + [lines[at]] * count + lines[at + 1 :])


def lines_swapped(numbers: Numbers, given: bytes) -> bytes:
    """Two lines in each other's place."""
    lines = given.splitlines(keepends=True) or [b"\n"]
    one, other = numbers.draw(0, len(lines) - 1), numbers.draw(0, len(lines) - 1)
    lines[one], lines[other] = lines[other], lines[one]
    return b"".join(lines)


def number_changed(numbers: Numbers, given: bytes) -> bytes:
    """A number at the end of a range, one past it, or long."""
    found = list(re.finditer(rb"-?\d+", given))
    if not found:
        return given + b"1"
    at = found[numbers.draw(0, len(found) - 1)]
    value = ENDS[numbers.draw(0, len(ENDS) - 1)] + numbers.draw(-1, 1)
    text = str(-value if numbers.draw(0, 3) == 0 else value).encode()
    if numbers.draw(0, 19) == 0:
        text = b"0" * numbers.draw(1, 30) + text
    if numbers.draw(0, 99) == 0:
        text = b"9" * numbers.draw(20, 5_000)
    return given[: at.start()] + text + given[at.end() :]


def line_lengthened(numbers: Numbers, given: bytes) -> bytes:
    """A long line, of one byte over and over."""
    at = numbers.draw(0, len(given))
    return given[:at] + bytes([numbers.draw(0, 255)]) * numbers.draw(1_000, 60_000) + given[at:]


CHANGES = [
    cut,
    dropped,
    byte_changed,
    byte_changed,
    piece_put_in,
    piece_put_in,
    line_doubled,
    lines_swapped,
    number_changed,
    number_changed,
    number_changed,
    number_changed,
]


def at_random(numbers: Numbers) -> bytes:
    """Bytes at random, of any kind or of the signs that inputs are made of."""
    length = numbers.draw(0, 300)
    signs = [bytes(range(256)), b"0123456789,-\n", b'read,0123456789\n\r"%', b"[]={}.\"'#\n 019atruefls_-"][
        numbers.draw(0, 3)
    ]
    return bytes(signs[numbers.draw(0, len(signs) - 1)] for _ in range(length))


def words_changed(numbers: Numbers, words: tuple[str, ...]) -> tuple[str, ...]:
    """The words, at times others."""
    if numbers.draw(0, 39):
        return words
    kinds = [
        (),
        ("run", "run"),
        ("--help",),
        ("flat",),
        ("flat", "100"),
        ("trial", "7"),
        ("",),
        ("run\n",),
        ("upgrade", "1"),
        ("display", "1"),
        ("why", "1"),
        ("drive", "7"),
        ("certify", "0"),
        ("check", "1"),
        ("live", "1"),
        ("version",),
        ("help",),
        ("version", "help"),
    ]
    if numbers.draw(0, 1):
        return kinds[numbers.draw(0, len(kinds) - 1)]
    ends = [str(end + numbers.draw(-1, 1)) for end in ENDS]
    first, second = ends[numbers.draw(0, len(ends) - 1)], ends[numbers.draw(0, len(ends) - 1)]
    return (("flat", first, second), ("trial", first, str(numbers.draw(0, 50))))[numbers.draw(0, 1)]


def near_the_limit(numbers: Numbers, seed: Given) -> bytes:
    """An input of about the most bytes: a long comment, a long text, or many lines, in the data part or after it."""
    about = MOST_BYTES - len(seed.given) + numbers.draw(-2, 2)
    # `live` searches its data part again with each read, so one of so many bytes takes it minutes
    kind = numbers.draw(2, 3) if seed.words == ("live",) else numbers.draw(0, 4)
    if kind == 0:
        return b"#" + b"a" * (about - 2) + b"\n" + seed.given
    if kind == 1:
        return b"\n" * about + seed.given
    if kind == 2:
        return seed.given + b"x" * about
    if kind == 3:
        return seed.given + b"\n" * about
    return b'text = "' + b"a" * (about - 10) + b'"\n' + seed.given


def made(number: int, chosen: argparse.Namespace, found: list[Given]) -> Given:
    """The input of a number: each is made from a generator of its own, so that it can be made again alone."""
    numbers = Numbers(chosen.seed * 1_000_003 + number)
    seed = found[numbers.draw(0, len(found) - 1)]
    if number % chosen.each_large == 0:
        return Given(seed.words, near_the_limit(numbers, seed))
    if numbers.draw(0, 9) == 0:
        return Given(words_changed(numbers, seed.words), at_random(numbers))
    given = seed.given
    for _ in range(numbers.draw(1, 4)):
        given = CHANGES[numbers.draw(0, len(CHANGES) - 1)](numbers, given)
    if numbers.draw(0, 199) == 0:
        given = line_lengthened(numbers, given)
    return Given(words_changed(numbers, seed.words), given)


# ---- one run


def run(program: Path, one: Given, folder: Path) -> tuple[int, bytes, bytes, float]:
    """Runs the program over files, so that no pipe can stand still: its status, what it wrote, and the seconds that it
    took."""
    name = f"{threading.get_ident()}"
    paths = [folder / f"{name}-{what}" for what in ("given", "out", "err")]
    paths[0].write_bytes(one.given)
    write = os.O_WRONLY | os.O_CREAT | os.O_TRUNC
    actions = [
        (os.POSIX_SPAWN_OPEN, 0, str(paths[0]), os.O_RDONLY, 0),
        (os.POSIX_SPAWN_OPEN, 1, str(paths[1]), write, 0o600),
        (os.POSIX_SPAWN_OPEN, 2, str(paths[2]), write, 0o600),
    ]
    child = os.posix_spawn(str(program), [str(program), *one.words], os.environ, file_actions=actions)
    timer = threading.Timer(60, os.kill, (child, 9))
    timer.start()
    _, status, used = os.wait4(child, 0)
    timer.cancel()
    return (
        os.waitstatus_to_exitcode(status),
        paths[1].read_bytes(),
        paths[2].read_bytes(),
        used.ru_utime + used.ru_stime,
    )


def fault_of(one: Given, code: int, out: bytes, err: bytes, seconds: float) -> str | None:
    """What is wrong with the end of a run, or None."""
    if code not in LINES:
        return f"it ended with {code}"
    if not re.fullmatch(LINES[code], err):
        return f"the line isn't that of code {code}"
    command = one.words[0] if one.words and code != 1 else "run"
    if not re.fullmatch(ROWS[command], out):
        return "out isn't whole rows"
    if out and code not in WITH_ROWS:
        return f"out holds rows at code {code}"
    if command == "live" and code == 7:
        return "live ended by a record"
    if code in (2, 3, 8):
        return f"code {code}, and nothing failed"
    if seconds > SECONDS:
        return f"it took {seconds:.2f} s"
    return None


def options(words: list[str]) -> argparse.Namespace:
    """What the command line asks for."""
    parser = argparse.ArgumentParser(description="Runs the built program over inputs made at random.")
    add_program(parser)
    parser.add_argument("--count", type=int, default=100_000, help="how many inputs; else 100,000")
    parser.add_argument("--seed", type=int, default=1, help="what the inputs are made from; else 1")
    parser.add_argument(
        "--each-large", type=int, default=2_000, help="each such one has about 16 MiB; else each 2,000th"
    )
    parser.add_argument("--only", metavar="WORD", help="the inputs of run alone, by this word, such as live")
    parser.add_argument("--jobs", type=int, default=4, help="how many runs at a time; else 4")
    parser.add_argument(
        "--keep", type=Path, default=Path("try-inputs-found"), help="where inputs that were wrong are kept"
    )
    return parser.parse_args(words)


def keep(folder: Path, number: int, one: Given, why: str) -> None:
    """Keeps an input that was wrong, with its words and what was wrong."""
    folder.mkdir(parents=True, exist_ok=True)
    (folder / f"{number}.input").write_bytes(one.given)
    (folder / f"{number}.txt").write_text(f"{' '.join(one.words)}\n{why}\n")


def main(words: list[str]) -> int:
    chosen = options(words)
    try:
        chosen.program = built(chosen.program)
    except Fault as fault:
        sys.exit(f"try-inputs: {fault}")
    found, codes, wrong = seeds(), Counter[int](), list[int]()
    if chosen.only:
        found = [Given((chosen.only,), seed.given) for seed in found if seed.words[0] in ("run", chosen.only)]
    with tempfile.TemporaryDirectory() as scratch:

        def tried(number: int) -> tuple[int, int, float, str | None]:
            one = made(number, chosen, found)
            code, out, err, seconds = run(chosen.program, one, Path(scratch))
            why = fault_of(one, code, out, err, seconds)
            if why:
                keep(chosen.keep, number, one, why)
            return number, code, seconds, why

        began, slowest = time.monotonic(), (0.0, 0)
        with ThreadPoolExecutor(chosen.jobs) as threads:
            for number, code, seconds, why in threads.map(tried, range(1, chosen.count + 1)):
                codes[code] += 1
                slowest = max(slowest, (seconds, number))
                if why:
                    wrong.append(number)
                    print(f"WRONG: input {number}: {why}; it is kept in {chosen.keep}", flush=True)
    print("| Code | Runs |\n|---:|---:|")
    for code, count in sorted(codes.items()):
        print(f"| {code} | {count:,} |")
    print(
        f"\n{sum(codes.values()):,} inputs of seed {chosen.seed}, {len(wrong)} wrong, "
        f"in {time.monotonic() - began:,.0f} s; "
        f"the slowest took {slowest[0]:.2f} s (input {slowest[1]})"
    )
    return int(bool(wrong))
