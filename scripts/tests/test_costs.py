"""scripts/costs.py tells what each crate's proof, tests and edits took below a command."""

from __future__ import annotations

import os
import subprocess
import sys
import tempfile
import time
import unittest
from pathlib import Path

from scripts.costs import Watch, table

# Three checks one after another: each is named as the prover is, and works for half a second of processor time.
WORK = "import time\nwhile time.process_time() < 0.5: pass"
CHECKS = """
check() { (exec -a /kit/bin/rattle "$PYTHON" -c "$WORK" "$@"); }
check build --crate-name low src/lib.rt
check build --crate-name low src/lib.rt --test
cd "$ROOM" && check check --crate-name high src/lib.rt
"""
SECONDS = 60


class Costs(unittest.TestCase):
    def test_each_check_counts_for_its_crate_and_part(self) -> None:
        with tempfile.TemporaryDirectory() as scratch:
            room = Path(scratch) / "rt-edit-1-abc"
            room.mkdir()
            given = {"PYTHON": sys.executable, "WORK": WORK, "ROOM": str(room)}
            process = subprocess.Popen(["bash", "-c", CHECKS], env={**os.environ, **given})
            watch, until = Watch(process.pid), time.monotonic() + SECONDS
            while process.poll() is None and time.monotonic() < until:
                watch.look()
                time.sleep(0.02)
            self.assertEqual(process.wait(), 0)
        found = watch.minutes()
        self.assertEqual([*found], ["low", "high"])
        for crate, part in (("low", "proof"), ("low", "tests"), ("high", "edits")):
            self.assertGreater(found[crate][part] * 60, 0.3, (crate, part))
        self.assertEqual(found["high"]["proof"], 0.0)

    def test_the_dearest_crate_comes_first_and_what_is_left_last(self) -> None:
        found = {
            "low": {"proof": 1.0, "tests": 0.25, "edits": 0.0},
            "high": {"proof": 2.0, "tests": 0.0, "edits": 0.5},
        }
        self.assertEqual(
            table(found, 4.5)[2:],
            [
                "| `high` | 2.0 | 0.0 | 0.5 |",
                "| `low` | 1.0 | 0.2 | 0.0 |",
                "| all | 3.0 | 0.2 | 0.5 |",
                "",
                "the rest: 0.8 of 4.5 minutes of processor time",
            ],
        )
