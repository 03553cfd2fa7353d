"""A sweep gives one table whoever runs it; a bad variation is a row; what was ended goes on; nothing outlives it."""
import contextlib
import io
import os
import signal
import subprocess
import sys
import tempfile
import textwrap
import time
import unittest
from concurrent.futures import ProcessPoolExecutor, ThreadPoolExecutor
from pathlib import Path
from unittest import mock

import numpy as np

import sdm
from sdm.engine import ProgressLine, outcomes
from sdm.sweeps import varied

from tests.folders import TOP

DATA = {"train": {"length": 3, "band": [{"emergency": 60}, {"emergency": 70}]}}
PATIENCE = 20  # s


def lengths(data):
    """A closed loop in small: what it measures by itself."""
    length = data["train"]["length"]
    if length == 13:
        raise ZeroDivisionError("by hand")
    if length == 17:
        os._exit(9)
    return {"square": length * length}


def squares(data):
    """The same, where nothing goes wrong."""
    return {"square": data["train"]["length"] ** 2, "kind": "a"}


def swept(variations, drive=squares, **words):
    return sdm.sweep(DATA, drive, variations, progress=False, **words)


class Sweeps(unittest.TestCase):
    def setUp(self):
        room = tempfile.TemporaryDirectory()
        self.addCleanup(room.cleanup)
        self.room = Path(room.name)

    def test_the_table_is_the_same_by_whichever_executor(self):
        variations = {"train.length": range(50), "train.band[2].emergency": (1, 2)}
        due = [
            {
                "train.length": length,
                "train.band[2].emergency": band,
                "square": length * length,
                "kind": "a",
                "fault": "",
            }
            for length in range(50)
            for band in (1, 2)
        ]
        self.assertEqual(swept(variations, processes=1), due)
        self.assertEqual(swept(variations, processes=3), due)
        with ThreadPoolExecutor(3) as threads, ProcessPoolExecutor(2) as pool:
            self.assertEqual(swept(variations, executor=threads), due)
            self.assertEqual(swept(variations, executor=pool), due)
        as_they_come = list(sdm.sweep_as_completed(DATA, squares, variations, processes=2))
        self.assertEqual(
            sorted(as_they_come, key=lambda row: (row["train.length"], row["train.band[2].emergency"])), due
        )

    def test_one_bad_variation_is_a_row(self):
        variations = [{"train.length": length} for length in range(20)] + [{"train.band[3].emergency": 5}]
        rows = swept(variations, lengths, processes=3)
        faults = {number: row["fault"] for number, row in enumerate(rows) if row["fault"]}
        self.assertEqual(set(faults), {13, 17, 20})
        self.assertEqual(faults[13], "ZeroDivisionError: by hand")
        self.assertEqual(faults[17], "Ended: its process ended with 9")
        self.assertEqual(faults[20], "the data part has no train.band[3].emergency")
        self.assertEqual([row["square"] for row in rows[:13]], [length * length for length in range(13)])

    def test_lazy_variations(self):
        """Of variations without end those are taken that are needed."""
        taken = []

        def without_end():
            while True:
                taken.append(len(taken))
                yield {"train.length": len(taken)}

        with contextlib.closing(sdm.sweep_as_completed(DATA, squares, without_end(), processes=2)) as results:
            first = [next(results) for _ in range(5)]
        self.assertEqual(len({row["train.length"] for row in first}), 5)
        self.assertLess(len(taken), 1000)

    def test_values_of_numpy_and_paths(self):
        self.assertEqual(varied(DATA, {"train.band[1].emergency": 5}), varied(DATA, {"train.band.0.emergency": 5}))
        for path in (
            "train.band[0].emergency",
            "train.band[3].emergency",
            "nothing.length",
            "train.length.x",
            "train.band.x",
        ):
            with self.assertRaisesRegex(sdm.FormError, f"^the data part has no {path}$".replace("[", r"\[")):
                varied(DATA, {path: 5})
        rows = swept({"train.length": np.arange(3)}, processes=1, keep=self.room / "kept")
        self.assertEqual([row["square"] for row in rows], [0, 1, 4])

    def test_what_was_ended_goes_on(self):
        path, variations = self.room / "kept", {"train.length": range(40)}
        due = swept(variations, processes=1)
        with contextlib.closing(sdm.sweep_as_completed(DATA, squares, variations, processes=1, keep=path)) as results:
            for _ in range(7):
                next(results)
        lines = path.read_text().splitlines(keepends=True)
        self.assertEqual(len(lines), 8)
        path.write_text("".join(lines[:6]) + lines[6][:10])  # a line that was cut
        calls = self.room / "calls"

        def counted(data):
            with calls.open("a") as file:
                file.write(f"{data['train']['length']}\n")
            return squares(data)

        counted.__qualname__ = squares.__qualname__  # by which the file knows it
        self.assertEqual(swept(variations, counted, processes=1, keep=path), due)
        self.assertEqual(list(map(int, calls.read_text().split())), list(range(5, 40)))
        self.assertEqual(swept(variations, counted, processes=2, keep=path), due)
        self.assertEqual(len(calls.read_text().split()), 35)
        for other in (dict(data={"train": {"length": 4}}), dict(drive=lengths), dict(measure=lengths)):
            words = dict(data=DATA, drive=squares, measure=sdm.summary) | other
            with self.assertRaisesRegex(sdm.FormError, "is kept of another sweep"):
                sdm.sweep(words["data"], words["drive"], variations, words["measure"], keep=path)

    def test_another_file_isn_t_written_over(self):
        for text in (b"time,speed", b"time,speed\n0,5\n", b"\xff\n"):
            (self.room / "other").write_bytes(text)
            with self.assertRaisesRegex(sdm.FormError, "is kept of another sweep"):
                swept({"train.length": range(3)}, processes=1, keep=self.room / "other")
            self.assertEqual((self.room / "other").read_bytes(), text)

    def test_what_the_machine_did_wrong_is_done_again(self):
        path, variations = self.room / "kept", {"train.length": [16, 17, 18]}
        self.assertIn("Ended", swept(variations, lengths, processes=2, keep=path)[1]["fault"])
        self.assertEqual(
            [length for length in (16, 17, 18) if f'"train.length": {length}' in path.read_text()], [16, 18]
        )

    def test_a_process_that_is_killed_loses_nothing_and_does_nothing_twice(self):
        """Killed in a batch of one job, the first, and in a later one."""

        def ended_once(number):
            if number in (0, 31) and not (self.room / str(number)).exists():
                (self.room / str(number)).touch()
                os.kill(os.getpid(), signal.SIGKILL)
            return number

        made = sorted(
            (job, outcome) for job, outcome, why in outcomes(ended_once, range(200), processes=3) if why is None
        )
        self.assertEqual(made, [(number, number) for number in range(200)])


class Ends(unittest.TestCase):
    """Of a sweep of variations without end, in a process of its own."""

    def begin(self):
        script = f"""
            import itertools, sys, time
            sys.path.insert(0, {str(TOP / 'python')!r})
            import sdm
            def slow(data):
                time.sleep(30 if data["x"] % 50 == 0 else 0.002)
                return {{}}
            print("begun", flush=True)
            sdm.sweep({{"x": 1}}, slow, ({{"x": x}} for x in itertools.count(1)), processes=3, progress=False)
        """
        begun = subprocess.Popen(
            [sys.executable, "-c", textwrap.dedent(script)],
            stdout=subprocess.PIPE,
            stderr=subprocess.PIPE,
            text=True,
            preexec_fn=lambda: signal.signal(signal.SIGINT, signal.SIG_DFL),  # a shell's background ignores it
        )
        self.addCleanup(begun.stdout.close)
        self.addCleanup(begun.stderr.close)
        self.addCleanup(begun.wait)
        self.addCleanup(begun.kill)
        begun.stdout.readline()
        until = time.monotonic() + PATIENCE
        while len(found := children(begun.pid)) < 3 and time.monotonic() < until:
            time.sleep(0.05)
        self.assertEqual(len(found), 3)
        time.sleep(1)
        return begun, found

    def test_an_interrupt_ends_it_within_two_seconds(self):
        begun, found = self.begin()
        asked = time.monotonic()
        begun.send_signal(signal.SIGINT)
        told = begun.communicate(timeout=PATIENCE)[1]
        self.assertLess(time.monotonic() - asked, 2)
        self.assertTrue(told.rstrip().endswith("KeyboardInterrupt"), told)
        self.assertEqual(told.count("Traceback"), 1, "the processes say nothing")
        self.gone(found)

    def test_no_process_outlives_it(self):
        for number in (signal.SIGTERM, signal.SIGKILL):
            begun, found = self.begin()
            begun.send_signal(number)
            begun.wait(PATIENCE)
            self.gone(found)

    def gone(self, found):
        until = time.monotonic() + 2
        while any(is_there(pid) for pid in found) and time.monotonic() < until:
            time.sleep(0.02)
        self.assertEqual([pid for pid in found if is_there(pid)], [])


def children(pid):
    return list(map(int, Path(f"/proc/{pid}/task/{pid}/children").read_text().split()))


def is_there(pid):
    """Whether a process runs; one that has ended and waits to be taken note of doesn't."""
    try:
        return Path(f"/proc/{pid}/stat").read_text().rpartition(") ")[2][0] != "Z"
    except OSError:
        return False


class Told(unittest.TestCase):
    def told(self, is_terminal, seconds, done, total):
        """What is told where so many seconds pass with each job."""
        out = io.StringIO()
        out.isatty = lambda: is_terminal
        now = iter(float(seconds * i // 2) for i in range(10_000))
        with contextlib.redirect_stderr(out), mock.patch("sdm.engine.time.monotonic", lambda: next(now)):
            progress = ProgressLine("variations", total)
            for _ in range(done):
                progress.count()
            progress.end()
        return out.getvalue()

    def test_a_bar_at_a_terminal_and_lines_elsewhere(self):
        bar = self.told(True, 2, 10, 40)
        self.assertIn("\r\033[K[######                  ] 10 of 40 variations, ", bar)
        self.assertRegex(bar.splitlines()[-1], r"\d a second, 0:0\d:\d\d left$")
        lines = self.told(False, 6, 10, 40)
        self.assertNotIn("\r", lines)
        self.assertRegex(lines.splitlines()[0], r"^\d+ of 40 variations, [\d.]+ a second, 0:\d\d:\d\d left$")
        self.assertRegex(self.told(False, 6, 10, None).splitlines()[0], r"^\d+ variations, [\d.]+ a second$")

    def test_what_is_soon_done_is_told_nothing_of(self):
        self.assertEqual(self.told(False, 0, 1000, 1000) + self.told(True, 0, 1000, 1000), "")

    def test_what_was_there_before_counts_for_no_rate(self):
        now = iter([0.0, *([0.0] * 40), 10.0])
        with mock.patch("sdm.engine.time.monotonic", lambda: next(now)):
            progress = ProgressLine("variations", 100)
            for number in range(40):
                progress.count(is_kept=number < 30)
            self.assertEqual(progress.line(), "40 of 100 variations, 1.0 a second, 0:01:00 left")
