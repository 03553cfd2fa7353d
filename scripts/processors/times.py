"""Measures what a reading takes on each way, on this machine and in one run: processor time, and instructions, which
don't depend on what else runs; and what memory and stack the library as C takes on each processor. It asserts nothing.

    scripts/house show processors [ROUNDS]    prints three tables in Markdown"""
from __future__ import annotations

import re
import shutil
import subprocess
import sys
import tempfile
from pathlib import Path

from inputs import MAKERS
from scripts.processors import build, proved
from scripts.processors.node import MODULES, node_options
from scripts.processors.played import PORTABLE, emulated
from scripts.processors.targets import PROCESSORS, Processor
from scripts.processors.tools import ran
from sdm.laboratory.program import LIBRARY, TOP, Fault

INPUTS = ["smooth", "greatest", "staircase"]
SEED = 1
PARTS = ["module", "calls", "instance", "sdm_text", "host_array"]
OPTIONS = ["-std=c11", "-O2", "-Wno-unused-parameter", f"-I{TOP / 'c'}"]
STACK = re.compile(r"^(sdm_\w+) .* (\d+)$", re.M)
OWN_STACK = re.compile(r"used by (\d+) bytes")
COLLECTED = re.compile(r"Collected : (\d+)")
MEMORY = re.compile(r"up to its byte (\d+)")


def program_over_c(name: str, source: Path, into: Path, processor: Processor, *more: str) -> Path:
    """A program of c/ over the library as C."""
    sources = [*(source / f"{part}.c" for part in PARTS), TOP / "c" / "journey.c"]
    sources += (
        [PORTABLE / "time_readings.c"]
        if name == "time_readings"
        else [TOP / "c" / "measure.c", PORTABLE / "measured.c"]
    )
    out = into / f"{name}-{processor.name}-{len(more)}"
    words = [processor.compiler, *OPTIONS, *processor.options, f"-I{source}", *more, "-static", "-o", str(out)]
    ran(*words, *map(str, sources))
    return out


def program_over_archive(into: Path) -> Path:
    """The program over the archive for this machine."""
    sources = [PORTABLE / "time_readings.c", TOP / "c" / "journey.c", TOP / "c" / "heap_malloc.c"]
    out = into / "archive"
    ran("gcc", *OPTIONS, f"-I{TOP / 'c'}", "-o", out, *map(str, sources), LIBRARY.path)
    return out


def told(words: list[str], given: bytes) -> tuple[int, int]:
    """The ns of a reading and the microseconds of an opening that a program tells."""
    done = subprocess.run(words, input=given, capture_output=True, check=False)
    if done.returncode:
        raise Fault(f"{words[0]} ended with {done.returncode}: {done.stderr.decode()[-500:]}")
    _, reading, opening = done.stdout.split()
    return int(reading), int(opening)


def programs(source: Path, scratch: Path) -> dict[str, list[str]]:
    """The programs that play the readings, on this machine without an engine."""
    own, untested = PROCESSORS["x86_64"], "-DSDM_NO_BOUNDS_TESTS"
    return {
        "archive": [str(program_over_archive(scratch))],
        "C, bounds untested": [str(program_over_c("time_readings", source, scratch, own, untested))],
        "C, bounds tested": [str(program_over_c("time_readings", source, scratch, own))],
    }


def times(ways: dict[str, list[str]], package: Path, rounds: int) -> list[str]:
    """The table of times: each input in turn by each way, so that all have the same neighbours."""
    ways = dict(ways)
    for module in MODULES:
        ways[f"node, `{module}`"] = ["node", *node_options(module), str(package / "measure.mjs"), str(package / module)]
    lines = ["| Way | " + " | ".join(f"{name}: reading, ns | opening, µs" for name in INPUTS) + " |"]
    lines += ["|---|" + "---:|" * (2 * len(INPUTS))]
    found: dict[str, list[int]] = {way: [] for way in ways}
    for name in INPUTS:
        given = MAKERS[name](SEED).whole()
        for way, words in ways.items():
            found[way] += told([*words, str(rounds)], given)
    return lines + [
        f"| {way} | " + " | ".join(f"{number:,}" for number in numbers) + " |" for way, numbers in found.items()
    ]


def instructions_of(words: list[str], given: bytes, readings: int) -> int:
    """The instructions of `sdm_cycle` in the mean, by callgrind."""
    counting = ["valgrind", "--tool=callgrind", "--callgrind-out-file=/dev/null", "--toggle-collect=sdm_cycle"]
    done = subprocess.run([*counting, *words, "1"], input=given, capture_output=True, check=True)
    return round(int(COLLECTED.findall(done.stderr.decode())[0]) / readings)


def instructions(ways: dict[str, list[str]]) -> list[str]:
    """The table of instructions."""
    lines = ["| Way | " + " | ".join(INPUTS) + " |", "|---|" + "---:|" * len(INPUTS)]
    made = [MAKERS[name](SEED) for name in INPUTS]
    for way, words in ways.items():
        counts = [instructions_of(words, each.whole(), each.counted) for each in made]
        lines.append(f"| {way} | " + " | ".join(f"{count:,}" for count in counts) + " |")
    return lines


def stacks(source: Path, scratch: Path) -> list[str]:
    """The table of stack and memory, of the library as C over `greatest`, by each processor."""
    lines = [
        "| Processor | stack of `sdm_cycle` | of `sdm_open` | of any other call | the module's own stack | its memory |"
    ]
    lines += ["|---|" + "---:|" * 5]
    given = MAKERS["greatest"](SEED).whole()
    for processor in PROCESSORS.values():
        if processor.emulator and shutil.which(processor.emulator) is None:
            continue
        program = program_over_c("measure", source, scratch, processor)
        done = subprocess.run(
            [*emulated(processor), program], input=given, capture_output=True, check=True
        ).stdout.decode()
        depths = {call: int(depth) for call, depth in STACK.findall(done)}
        others = max(depth for call, depth in depths.items() if call not in ("sdm_cycle", "sdm_open"))
        own, memory = OWN_STACK.findall(done)[0], MEMORY.findall(done)[0]
        numbers = [depths["sdm_cycle"], depths["sdm_open"], others, int(own), int(memory)]
        lines.append(f"| {processor.name} | " + " | ".join(f"{number:,}" for number in numbers) + " |")
    return lines


def main(words: list[str]) -> int:
    rounds = int(words[0]) if words else 5
    try:
        proved.must_hold()
        with tempfile.TemporaryDirectory() as name:
            source, package = build.c_source(), build.web_assembly() / "sdm"
            ways = programs(source, Path(name))
            print("\n".join([*times(ways, package, rounds), ""]), flush=True)
            print("\n".join([*instructions(ways), ""]), flush=True)
            print("\n".join(stacks(source, Path(name))))
    except Fault as why:
        print(f"times: {why}", file=sys.stderr)
        return 1
    return 0
