"""What a program takes over an input: processor time as the system counts it, instructions as callgrind does, memory as
GNU time does; and what is to be told of the machine beside these figures."""
from __future__ import annotations

import os
import re
import shutil
import subprocess
from pathlib import Path

ROOT = Path(__file__).resolve().parent.parent
TOOLS = ["valgrind", "/usr/bin/time"]


def tools_missing() -> list[str]:
    """The tools that are not there; `scripts/setup tools` installs them."""
    return [tool for tool in TOOLS if not shutil.which(tool)]


def ending(program: Path, words: list[str], path: Path) -> tuple[int, str]:
    """How the program ends over an input: its status, and what it tells of a fault."""
    with open(path, "rb") as source:
        ran = subprocess.run(
            [program, *words], stdin=source, stdout=subprocess.DEVNULL, stderr=subprocess.PIPE, check=False
        )
    return ran.returncode, ran.stderr.decode(errors="replace").strip()


def spent(program: Path, words: list[str], path: Path) -> float:
    """The seconds of processor time, of the program and of the system for it, that one run takes. The rows go to
    /dev/null."""
    with open(path, "rb") as source:
        run = subprocess.Popen([program, *words], stdin=source, stdout=subprocess.DEVNULL, stderr=subprocess.DEVNULL)
        _, status, usage = os.wait4(run.pid, 0)
    run.returncode = os.waitstatus_to_exitcode(status)
    return float(usage.ru_utime + usage.ru_stime)


def peak_kib(program: Path, words: list[str], path: Path, folder: Path) -> int:
    """The most memory of one run that was resident at once, in KiB. GNU time starts the program: the system counts
    what the starter of a program had at first, and Python has more than the program takes."""
    report = folder / "memory"
    with open(path, "rb") as source:
        subprocess.run(
            ["/usr/bin/time", "-f", "%M", "-o", report, program, *words],
            stdin=source,
            stdout=subprocess.DEVNULL,
            stderr=subprocess.DEVNULL,
            check=True,
        )
    return int(report.read_text().split()[-1])


def instructions(program: Path, words: list[str], path: Path, profile: Path) -> int:
    """The instructions of one run with an empty environment, of which the loader would read each byte before `main`;
    the profile stays, for callgrind_annotate."""
    tool = [shutil.which("valgrind") or "valgrind", "--tool=callgrind", f"--callgrind-out-file={profile}"]
    with open(path, "rb") as source:
        subprocess.run(
            [*tool, program, *words],
            stdin=source,
            stdout=subprocess.DEVNULL,
            stderr=subprocess.DEVNULL,
            check=True,
            env=dict[str, str](),
        )
    return int(re.findall(r"^(?:summary|totals): (\d+)", profile.read_text(), re.MULTILINE)[0])


def said(command: list[str]) -> str:
    """What a command says; `unknown` where it fails."""
    try:
        return subprocess.run(command, cwd=ROOT, capture_output=True, text=True, check=True).stdout.strip()
    except (OSError, subprocess.CalledProcessError):
        return "unknown"


def load() -> float:
    """The load average of the last minute."""
    return os.getloadavg()[0]


def machine() -> str:
    """The processor, its cores and the memory."""
    names = re.findall(r"^model name\s*: (.*)$", Path("/proc/cpuinfo").read_text(), re.MULTILINE)
    name = re.sub(r"\s+", " ", names[0]) if names else "unknown processor"
    memory = os.sysconf("SC_PAGE_SIZE") * os.sysconf("SC_PHYS_PAGES") / 2**30
    return f"{name}, {os.cpu_count()} cores, {memory:.0f} GiB of memory"


def commit() -> str:
    """The commit of this repository, and whether its files differ from it."""
    same = subprocess.run(["git", "diff", "--quiet", "HEAD"], cwd=ROOT, check=False).returncode == 0
    return said(["git", "rev-parse", "--short", "HEAD"]) + ("" if same else ", with changes")
