"""Many jobs on whatever runs Python's Executor: processes of this machine by default; MPI's or Dask's for several. A
sweep and a campaign are both run by it.

Jobs go out in batches of about BATCH seconds, and come back as they end. Of a batch whose process ended, or that can't
be handed over, each job goes out again alone, once, so that the one at fault is found. No process outlives the one that
began it: each watches for its end.
"""
from __future__ import annotations

import multiprocessing
import os
import signal
import sys
import threading
import time
from collections.abc import Callable, Generator, Iterable, Iterator
from concurrent.futures import FIRST_COMPLETED, BrokenExecutor, Executor, Future, wait
from contextlib import suppress
from dataclasses import dataclass
from itertools import islice
from multiprocessing import connection
from typing import Any

Do = Callable[[Any], Any]  # a job to its outcome
Outcome = tuple[Any, Any, BaseException | None]  # a job, what it led to, and why it ended where it didn't end by itself
Made = tuple[list[Any], float]  # the outcomes of a batch, and the seconds that they took
Came = tuple[list[Any], Made | None, BaseException | None]  # a batch with what was made of it, or why nothing was
BATCH = 0.25  # s
MOST_BATCHES = 64  # that an executor of the caller's has at once
AT_A_TERMINAL, ELSEWHERE = (1.0, 0.2), (5.0, 5.0)  # s until progress is told first, and again
BAR = 24  # characters


class Ended(Exception):
    """A process ended before its job did."""


class Alone(list[Any]):
    """A batch of one job that is tried again."""


def batch(do: Do, jobs: list[Any]) -> Made:
    """The outcomes of some jobs, and how long they took."""
    begun = time.perf_counter()
    return [do(job) for job in jobs], time.perf_counter() - begun


def work(do: Do, line: connection.Connection) -> None:
    """What a process does: batches that come over a line, until it closes. It leads a group of its own, so that no key
    of a terminal reaches it, and what it began ends with it."""
    os.setpgrp()
    threading.Thread(target=end_with_parent, daemon=True).start()
    while True:
        try:
            jobs = line.recv()
        except EOFError:
            return
        try:
            line.send((batch(do, jobs), None))
        except Exception as why:  # an outcome that can't be handed over
            line.send((None, Ended(f"{type(why).__name__}: {why}")))


def end_with_parent() -> None:
    """Waits for the end of the process that began this one, and ends this one's group."""
    parent = multiprocessing.parent_process()
    if parent is not None:
        parent.join()
        os.killpg(0, signal.SIGKILL)


@dataclass
class Worker:
    """A process, the line to it, and the batch that it has."""

    process: Any
    line: connection.Connection
    held: list[Any] | None = None


class Processes:
    """Processes of this machine, each with one batch at a time."""

    def __init__(self, do: Do, count: int) -> None:
        self.do = do
        self.workers: list[Worker] = []
        try:
            self.workers += (self.begun() for _ in range(count))
        except BaseException:
            self.stop()
            raise

    def begun(self) -> Worker:
        """A process that waits for a batch."""
        ours, theirs = multiprocessing.Pipe()
        process = multiprocessing.get_context("fork").Process(target=work, args=(self.do, theirs), daemon=True)
        process.start()
        theirs.close()
        return Worker(process, ours)

    def has_room(self) -> bool:
        """Whether a batch can be sent."""
        return any(worker.held is None for worker in self.workers)

    def is_busy(self) -> bool:
        """Whether a batch is out."""
        return any(worker.held is not None for worker in self.workers)

    def send(self, jobs: list[Any]) -> None:
        """Sends a batch to a process that has none."""
        worker = next(worker for worker in self.workers if worker.held is None)
        worker.held = jobs
        with suppress(BrokenPipeError, ConnectionResetError):  # it ended meanwhile, and `came` says so
            worker.line.send(jobs)

    def came(self) -> Iterator[Came]:
        """Waits for batches that are done, or whose process ended; another one takes the place of that."""
        ready = connection.wait([worker.line for worker in self.workers if worker.held is not None])
        for i, worker in enumerate(self.workers):
            if worker.line in ready and worker.held is not None:
                held, worker.held = worker.held, None
                try:
                    made, why = worker.line.recv()
                except (EOFError, ConnectionResetError):
                    worker.process.join()
                    made, why = None, Ended(f"its process ended with {worker.process.exitcode}")
                    self.workers[i] = self.begun()
                yield held, made, why

    def stop(self) -> None:
        """Ends them, whatever they do, with what they began."""
        for worker in self.workers:
            worker.line.close()
            with suppress(ProcessLookupError):
                worker.process.kill()
                os.killpg(worker.process.pid, signal.SIGKILL)
        for worker in self.workers:
            worker.process.join()


class Given:
    """An executor of the caller's, to which the function goes with each batch."""

    def __init__(self, do: Do, executor: Any) -> None:
        self.do = do
        self.executor: Executor = executor.get_executor() if hasattr(executor, "get_executor") else executor
        self.pending: dict[Future[Made], list[Any]] = {}

    def has_room(self) -> bool:
        """Whether a batch can be sent."""
        return len(self.pending) < MOST_BATCHES

    def is_busy(self) -> bool:
        """Whether a batch is out."""
        return bool(self.pending)

    def send(self, jobs: list[Any]) -> None:
        """Hands a batch to the executor."""
        self.pending[self.executor.submit(batch, self.do, jobs)] = jobs

    def came(self) -> Iterator[Came]:
        """Waits for batches that are done. Raises BrokenExecutor where the executor is of no use any more."""
        for future in wait(self.pending, return_when=FIRST_COMPLETED).done:
            held, why = self.pending.pop(future), future.exception()
            if isinstance(why, BrokenExecutor):
                raise why
            yield held, None if why else future.result(), why

    def stop(self) -> None:
        """Takes back what isn't begun."""
        for future in self.pending:
            future.cancel()


def outcomes(
    do: Do, jobs: Iterable[Any], *, executor: Any = None, processes: int | None = None
) -> Generator[Outcome, None, None]:
    """The outcomes of jobs, as they end. `do` says itself what went wrong in a job; where it can't, since its process
    ended or it can't be handed over, the outcome has why.

    Without an executor jobs are done by so many processes, as many as this process may use where it isn't said; by this
    one itself where that is one."""
    count = processes or len(os.sched_getaffinity(0))
    if executor is None and count == 1:
        yield from ((job, do(job), None) for job in jobs)
        return
    crew: Processes | Given = Processes(do, count) if executor is None else Given(do, executor)
    try:
        yield from outcomes_by(crew, jobs)
    finally:
        crew.stop()


def outcomes_by(crew: Processes | Given, jobs: Iterable[Any]) -> Iterator[Outcome]:
    """The outcomes of jobs by a crew: batches of a size that grows to BATCH seconds."""
    left, alone, size = iter(jobs), list[Alone](), 1
    while True:
        while crew.has_room():
            held = alone.pop() if alone else list(islice(left, size))
            if not held:
                break
            crew.send(held)
        if not crew.is_busy():
            return
        for held, made, why in crew.came():
            if made is not None:
                size = max(1, min(2 * size, round(BATCH * len(held) / max(made[1], 1e-9))))
                yield from ((job, outcome, None) for job, outcome in zip(held, made[0]))
            elif isinstance(held, Alone):
                yield held[0], None, why
            else:
                alone += (Alone([job]) for job in held)


class ProgressLine:
    """Tells on standard error how many jobs are done, how many a second, and the time left: as a bar that is drawn
    again at a terminal, in a line now and then elsewhere. What is soon done is told nothing of."""

    def __init__(self, what: str, total: int | None, is_told: bool = True) -> None:
        self.what, self.total, self.is_told = what, total, is_told
        self.done, self.kept = 0, 0
        self.begun = time.monotonic()
        self.is_terminal = sys.stderr.isatty()
        first, self.again = AT_A_TERMINAL if self.is_terminal else ELSEWHERE
        self.next = self.begun + first
        self.was_told = False

    def count(self, is_kept: bool = False) -> None:
        """One more is done, or was kept from before."""
        self.done += 1
        self.kept += is_kept
        if self.is_told and time.monotonic() >= self.next:
            self.tell()
            self.next = time.monotonic() + self.again

    def line(self) -> str:
        """How far it is."""
        seconds = time.monotonic() - self.begun
        rate = (self.done - self.kept) / max(seconds, 1e-9)
        of = "" if self.total is None else f" of {self.total:,}"
        text = f"{self.done:,}{of} {self.what}, {rate:,.1f} a second"
        if self.total is None or not rate:
            return text
        full = BAR * self.done // max(self.total, 1)
        left = round((self.total - self.done) / rate)
        bar = f"[{'#' * full}{' ' * (BAR - full)}] " if self.is_terminal else ""
        return f"{bar}{text}, {left // 3600}:{left // 60 % 60:02}:{left % 60:02} left"

    def tell(self) -> None:
        """Tells it."""
        self.was_told = True
        start, end = ("\r\033[K", "") if self.is_terminal else ("", "\n")
        print(f"{start}{self.line()}", end=end, file=sys.stderr, flush=True)

    def end(self) -> None:
        """Ends the line at a terminal."""
        if self.was_told and self.is_terminal:
            self.tell()
            print(file=sys.stderr, flush=True)
