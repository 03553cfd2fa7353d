"""Tries a sweep and a campaign on Dask over two hosts, and a sweep on MPI. The hosts are two network namespaces of this
machine with a line between them: a scheduler and a worker in the one, two workers in the other. In the middle of the
sweep a worker of the other host is killed. Nothing may be lost or come twice, and each table must be that of one
process. It needs root, Debian's python3-distributed, python3-mpi4py and openmpi-bin, and is no part of the gate."""
from __future__ import annotations

import argparse
import collections
import os
import shutil
import signal
import subprocess
import sys
import tempfile
import time
from collections.abc import Iterator
from contextlib import ExitStack, closing, contextmanager
from importlib import import_module
from pathlib import Path
from typing import Any

import sdm
from scripts.product.marks import library_of
from sdm.build_library import build
from sdm.laboratory.program import TOP, Fault, add_program, built

HOSTS = {"sdm-one": "10.83.0.1", "sdm-two": "10.83.0.2"}
PORT = 8786
NOTES = "SDM_TRIED"  # the file into which workers write which of them did what
VARIATIONS = {"train.band[1].emergency": range(60, 140), "train.emergency_time": range(0, 80, 2)}
KILLED_AT = 4  # of so many parts of the sweep, at the end of the first
PATIENCE = 60.0  # s, for the workers to be there


def journey() -> tuple[str, Any]:
    """Data and readings: a train that runs on at 40 m/s."""
    data = (TOP / "examples" / "realistic" / "input").read_text().partition("%%\n")[0]
    place = range(3_200_000, 5_200_000, 5_000)
    return data, sdm.readings(time_ds=range(len(place)), est_mm=place, min_mm=place, max_mm=place, speed_mm_s=40_000)


def noted(rows: Any) -> dict[str, Any]:
    """What a sweep tells of rows, once it is noted which process made them."""
    with open(os.environ[NOTES], "a") as notes:
        notes.write(f"{os.getpid()}\n")
    return sdm.summary(rows)


def worker_pid() -> int:
    """The process that runs this."""
    return os.getpid()


def ip(*words: str) -> None:
    """A command of iproute2."""
    subprocess.run(["ip", *words], check=True)


@contextmanager
def hosts() -> Iterator[None]:
    """Two network namespaces with a line between them."""
    one, two = HOSTS
    try:
        for host in HOSTS:
            ip("netns", "add", host)
        ip("link", "add", "sdm-line", "netns", one, "type", "veth", "peer", "name", "sdm-line", "netns", two)
        for host, address in HOSTS.items():
            ip("-n", host, "address", "add", f"{address}/24", "dev", "sdm-line")
            for device in ("lo", "sdm-line"):
                ip("-n", host, "link", "set", device, "up")
        yield
    finally:
        for host in HOSTS:
            subprocess.run(["ip", "netns", "delete", host], stderr=subprocess.DEVNULL)


@contextmanager
def running(host: str, words: list[str], room: Path) -> Iterator[None]:
    """A program on a host, which is ended in the end; what it tells goes to a file."""
    with (room / f"{host}.told").open("ab") as told:
        begun = subprocess.Popen(["ip", "netns", "exec", host, *words], stdout=told, stderr=told)
    try:
        yield
    finally:
        begun.kill()
        begun.wait()


@contextmanager
def cluster(room: Path) -> Iterator[str]:
    """A scheduler and three workers: the scheduler's address."""
    one, two = HOSTS
    address = f"tcp://{HOSTS[one]}:{PORT}"
    scheduler = ["dask", "scheduler", "--host", HOSTS[one], "--port", str(PORT), "--no-dashboard", "--no-show"]
    worker = [
        "dask",
        "worker",
        address,
        "--no-nanny",
        "--nthreads",
        "1",
        "--no-dashboard",
        "--local-directory",
        str(room),
    ]
    with ExitStack() as stack:
        stack.enter_context(running(one, scheduler, room))
        for name, host in (("first", one), ("second", two), ("third", two)):
            stack.enter_context(running(host, [*worker, "--name", name], room))
        yield address


def sweep_by_dask(address: str) -> int:
    """What the caller does, on the first host: the sweep, in whose middle a worker is killed."""
    data, readings = journey()
    due = sdm.sweep(data, readings, VARIATIONS, noted, processes=1, progress=False)
    Path(os.environ[NOTES]).write_text("")
    came = list[dict[str, Any]]()
    with import_module("distributed").Client(address) as client:
        client.wait_for_workers(3, timeout=PATIENCE)
        names = {at: each["name"] for at, each in client.scheduler_info()["workers"].items()}
        pids = {names[at]: pid for at, pid in client.run(worker_pid).items()}
        begun = time.monotonic()
        with closing(sdm.sweep_as_completed(data, readings, VARIATIONS, noted, executor=client)) as results:
            for result in results:
                came.append(result)
                if len(came) == len(due) // KILLED_AT:
                    os.kill(pids["third"], signal.SIGKILL)
                    print(f"the third worker is killed after {len(came)} of {len(due)} variations", flush=True)
        seconds, left = time.monotonic() - begun, len(client.scheduler_info()["workers"])
    done = collections.Counter(map(int, Path(os.environ[NOTES]).read_text().split()))
    told = ", ".join(f"{done[pid]} by the {name}" for name, pid in sorted(pids.items()))
    told += f"; {sum(done.values()) - len(due)} done again; {left} workers left"
    print(f"dask: {len(came)} results in {seconds:.1f} s: {told}")
    came.sort(key=lambda row: [row[path] for path in VARIATIONS])
    return int(came != due or left != 2 or not all(done[pid] for pid in pids.values()))


def sweep_by_mpi() -> int:
    """What the first of MPI's processes does."""
    data, readings = journey()
    due = sdm.sweep(data, readings, VARIATIONS, processes=1, progress=False)
    with import_module("mpi4py.futures").MPIPoolExecutor() as executor:
        begun = time.monotonic()
        rows = sdm.sweep(data, readings, VARIATIONS, executor=executor)
    print(f"mpi: {len(rows)} results in {time.monotonic() - begun:.1f} s")
    return int(rows != due)


def tried(room: Path, program: Path) -> list[str]:
    """Tries all; what failed."""
    own, on_one, failed = [sys.executable, "-m", "scripts.tries.hosts"], ["ip", "netns", "exec", "sdm-one"], []
    with hosts(), cluster(room) as address:
        if subprocess.run([*on_one, *own, "--by-dask", address]).returncode:
            failed.append("the sweep on Dask")
        shutil.copytree(TOP / "examples", room / "journeys")
        words = [sys.executable, "-m", "sdm", "campaign", str(room / "journeys"), "--program", str(program)]
        if subprocess.run([*on_one, *words, "--dask", address]).returncode:
            failed.append("the campaign on Dask")
    as_root = {"OMPI_ALLOW_RUN_AS_ROOT": "1", "OMPI_ALLOW_RUN_AS_ROOT_CONFIRM": "1"}
    mpi = [
        "mpiexec.openmpi",
        "-n",
        "3",
        "--oversubscribe",
        sys.executable,
        "-m",
        "mpi4py.futures",
        *own[1:],
        "--by-mpi",
    ]
    if subprocess.run(mpi, env=os.environ | as_root).returncode:
        failed.append("the sweep on MPI")
    return failed


def main(args: list[str]) -> int:
    parser = argparse.ArgumentParser(prog="scripts/house try hosts", description=__doc__.split("\n\n")[0])
    parser.add_argument("--library", type=Path, help="the static library for C, where it isn't the built one")
    parser.add_argument("--by-dask", metavar="ADDRESS", help=argparse.SUPPRESS)
    parser.add_argument("--by-mpi", action="store_true", help=argparse.SUPPRESS)
    add_program(parser)
    words = parser.parse_args(args)
    if words.by_dask or words.by_mpi:
        return sweep_by_mpi() if words.by_mpi else sweep_by_dask(words.by_dask)
    try:
        program, archive = built(words.program), library_of([str(words.library)] if words.library else [])
    except Fault as why:
        print(f"try hosts: {why}", file=sys.stderr)
        return 2
    with tempfile.TemporaryDirectory() as scratch:
        room = Path(scratch)
        build(archive, room / "libsdm.so")
        os.environ |= {"SDM_LIBRARY": str(room / "libsdm.so"), NOTES: str(room / "notes")}
        failed = tried(room, program)
    print(f"failed: {', '.join(failed) or 'none'}")
    return int(bool(failed))


if __name__ == "__main__":
    sys.exit(main(sys.argv[1:]))
