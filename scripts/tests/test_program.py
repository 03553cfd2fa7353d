"""The scripts over the built program take it only where its mark holds, and tell where it does otherwise than it
should."""
from __future__ import annotations

import re
import subprocess
import sys
import unittest
from importlib import import_module
from itertools import chain
from pathlib import Path

from maker.misreadings import MISREADINGS
from scripts.c import header
from scripts.table import CHECKS, OTHERS, SHOWN, TRIES, WRITERS
from scripts.tests import copies

EXAMPLE = "examples/approach"
IN_A_BROWSER = ("tries.browsed", "tries.report")  # they import what `scripts/setup tools` installs
MADE = ["scripts/house", "check", "model", "--seed", "10", "--journeys", "10"]
AT_THE_CEILING = [
    "scripts/house",
    "check",
    "model",
    "--seed",
    "17",
    "--journeys",
    "1",
]  # there the speed is that of the ceiling


def examples(*names: str) -> list[str]:
    """Parts of a copy: some examples, for the stand-in is slow."""
    return [f"examples/{name}" for name in names]


class OverACopy(unittest.TestCase):
    """Each test over a copy of some parts of the repository, in which a program has few sources."""

    parts = [
        ".ci",
        "HANDLES",
        "bench",
        "crates.txt",
        "crates/sdm",
        "crates/sdm_rules/specs",
        "scripts",
        "tools",
        "python",
    ]

    def setUp(self) -> None:
        copy = copies.a_copy(self.parts)
        self.top = copy.__enter__()
        self.addCleanup(copy.__exit__, None, None, None)
        copies.no_vectors(self.top)

    def told(self, *words: str, status: int = 1) -> str:
        """What a script tells that ends with a status."""
        ended, told = copies.ended(self.top, *words)
        self.assertEqual(ended, status, told)
        return told


class Marks(OverACopy):
    def setUp(self) -> None:
        super().setUp()
        copies.stand_in(self.top)

    def test_a_marked_program_is_taken(self) -> None:
        self.assertEqual(copies.mark(self.top)[0], 0)
        self.assertEqual(self.told("scripts/house", "program", status=0).strip(), str(self.top / "crates/sdm/out/sdm"))

    def test_without_a_mark_none_is_taken(self) -> None:
        for words in (["scripts/house", "program"], ["scripts/house", "check", "examples"], MADE, ["bench/run"]):
            self.assertIn("has no mark", self.told(*words))

    def test_bench_looks_for_its_program_before_its_tools(self) -> None:
        folder = self.top / "python-alone"
        folder.mkdir()
        for name, path in (("python3", sys.executable), ("bash", "/bin/bash"), ("dirname", "/usr/bin/dirname")):
            (folder / name).symlink_to(path)
        self.assertIn("has no mark", copies.ended(self.top, "bench/run", path=str(folder))[1])
        copies.mark(self.top)
        self.assertIn("`scripts/setup tools` installs it", copies.ended(self.top, "bench/run", path=str(folder))[1])

    def test_another_program_is_not_taken(self) -> None:
        copies.mark(self.top)
        copies.stand_in(self.top, "cat -u")
        self.assertIn("another program than the one that was marked", self.told("scripts/house", "check", "examples"))

    def test_other_sources_are_seen(self) -> None:
        copies.mark(self.top)
        for file in ("crates/sdm/src/main.rt", "crates/sdm_rules/specs/Commands.antt", "crates.txt"):
            with self.subTest(file):
                whole = (self.top / file).read_bytes()
                (self.top / file).write_bytes(whole + b"\n")
                self.assertIn("built from other sources", self.told("scripts/house", "check", "examples"))
                (self.top / file).write_bytes(whole)
        (self.top / "crates/sdm/src/more.rt").write_text("")
        self.assertIn("built from other sources", self.told(*MADE))

    def test_sources_that_change_during_the_build_give_no_mark(self) -> None:
        before = self.told("scripts/house", "program", "sources", status=0).strip()
        copies.alter(self.top, "crates/sdm/src/main.rt", r"\Z", "\n")
        self.assertIn("The sources changed", self.told("scripts/house", "program", "mark", before))

    def test_a_program_that_answers_wrongly_gets_no_mark(self) -> None:
        copies.stand_in(self.top, "sed 's/^25,T,I/25,T,N/'")
        self.assertIn("doesn't write what crates/sdm/stdout has", copies.mark(self.top)[1])
        copies.stand_in(self.top, status="1")
        self.assertIn("doesn't write what crates/sdm/stdout has", copies.mark(self.top)[1])


class LibraryMarks(OverACopy):
    OVER_IT = [["library"], ["check", "rides"], ["check", "library"]]

    def test_a_library_of_these_sources_alone_is_taken(self) -> None:
        self.assertIn("There is no library at", self.told("scripts/house", "library"))
        built = self.top / "crates/sdm_c/out/libsdm_c.a"
        built.parent.mkdir(parents=True)
        built.write_text("an archive")
        for words in self.OVER_IT:
            self.assertIn("has no mark", self.told("scripts/house", *words))
        copies.marked_as_it_is(self.top, "LIBRARY")
        self.assertEqual(self.told("scripts/house", "library", status=0).strip(), str(built))
        built.write_text("another")
        for words in self.OVER_IT:
            self.assertIn("another library than the one that was marked", self.told("scripts/house", *words))
        built.write_text("an archive")
        copies.alter(self.top, "crates/sdm/src/main.rt", r"\Z", "\n")
        for words in self.OVER_IT:
            self.assertIn("built from other sources", self.told("scripts/house", *words))


class Answers(OverACopy):
    parts = [*OverACopy.parts, *examples("approach", "flat", "realistic", "refused-data", "refused-record"), "worked"]

    def setUp(self) -> None:
        super().setUp()
        copies.stand_in(self.top)
        copies.marked_as_it_is(self.top)

    def test_a_program_that_does_as_the_model_passes(self) -> None:
        self.assertIn("0 failed", self.told("scripts/house", "check", "examples", status=0))
        self.assertIn("10 the same, 0 differ", self.told(*MADE, status=0))

    def test_another_row_of_an_example_is_told(self) -> None:
        copies.alter(self.top, f"{EXAMPLE}/rows", "^0,T,W", "0,T,X")
        self.assertIn("approach: the rows differ", self.told("scripts/house", "check", "examples"))

    def test_another_fault_line_or_code_of_an_example_is_told(self) -> None:
        copies.alter(self.top, "examples/refused-data/err", "$", ".")
        copies.alter(self.top, "examples/refused-record/code", r"\d", "5")
        told = self.told("scripts/house", "check", "examples")
        self.assertIn("refused-data: the fault line differs", told)
        self.assertIn("refused-record: the code is 7 and not 5", told)

    def test_a_program_that_is_named_is_taken_as_it_is(self) -> None:
        (self.top / "crates/sdm/out/sdm.sources").unlink()
        copies.stand_in(self.top, name="another")
        for words in (
            ["scripts/house", "check", "examples"],
            ["scripts/house", "check", "certificates"],
            ["scripts/house", "check", "upgrade"],
            ["scripts/house", "check", "worked", "--tables", "check"],
            ["scripts/house", "check", "model", "--seed", "10", "--journeys", "1"],
        ):
            with self.subTest(words[0]):
                self.assertIn("has no mark", self.told(*words))
                self.assertRegex(
                    self.told(*words, "--program", str(self.top / "another"), status=0), "0 failed|0 differ"
                )

    def test_other_words_are_refused(self) -> None:
        for words, fault in (
            (["examples", "approach"], "unrecognized arguments: approach"),
            (["certificates", "--program"], "--program: expected one argument"),
            (["c", "--more"], "no such words"),
        ):
            with self.subTest(words[0]):
                self.assertIn(fault, self.told("scripts/house", "check", *words, status=2))

    def test_an_example_without_its_files_is_told(self) -> None:
        (self.top / EXAMPLE / "rows").unlink()
        (self.top / "examples/realistic/rows").write_text("")
        told = self.told("scripts/house", "check", "examples")
        self.assertIn("approach: has no args, no input or no rows", told)
        self.assertIn("realistic: has neither rows nor a fault", told)

    def test_a_program_that_differs_from_the_model_is_told(self) -> None:
        copies.stand_in(self.top, "sed 's/,C,/,T,/'")
        copies.marked_as_it_is(self.top)
        self.assertRegex(self.told("scripts/house", "check", "examples"), "the rows differ")
        self.assertRegex(self.told(*AT_THE_CEILING), r"row \d+ differs")

    def test_a_live_program_that_tells_no_rows_is_told(self) -> None:
        copies.stand_in(self.top, "cat", name="model")
        live = 'sed -n "/^%%$/,\\$p" | sed "1d;s/.*/taken/"'
        program = self.top / "crates/sdm/out/sdm"
        program.write_text(f'#!/bin/bash\n[ "$1" = live ] || exec {self.top}/model "$@"\n{live}\n')
        copies.marked_as_it_is(self.top)
        self.assertIn("approach: other rows than those of run", self.told("scripts/house", "check", "live"))

    def test_a_build_that_differs_from_the_other_is_told(self) -> None:
        words = ["scripts/house", "check", "compilers", "--seed", "10", "--journeys", "1"]
        self.assertIn("There is no program at", self.told(*words))
        copies.stand_in(self.top, name="crates/sdm/out/sdm.by-rattle")
        self.assertRegex(self.told(*words, status=0), "made runs: [1-9][0-9]* the same, 0 differ")
        copies.stand_in(self.top, "sed 's/,C,/,T,/'", name="crates/sdm/out/sdm.by-rattle")
        self.assertRegex(self.told(*words), r"row \d+ differs")

    def test_an_upgrade_that_loses_nothing_passes(self) -> None:
        self.assertRegex(
            self.told("scripts/house", "check", "upgrade", status=0), "upgrade: [1-9][0-9]* passed, 0 failed"
        )

    def test_an_upgrade_that_loses_something_is_told(self) -> None:
        for filtered in ("sed 's/^max_speed = .*/max_speed = 37/'", "sed '/^rotating_mass/d'", "sed 's/^avadh/more/'"):
            with self.subTest(filtered):
                copies.stand_in(self.top, filtered)
                copies.marked_as_it_is(self.top)
                self.assertIn("another table", self.told("scripts/house", "check", "upgrade"))

    def test_a_worked_run_that_is_answered_otherwise_is_told(self) -> None:
        self.assertRegex(
            self.told("scripts/house", "check", "worked", "--tables", "check", status=0),
            "worked: [1-9][0-9]* passed, 0 failed",
        )
        copies.alter(self.top, "worked/check.txt", r"0,no/ \| 0", "0,yes/ | 0")
        copies.alter(self.top, "worked/check.txt", r"- \| 7 \| sdm: bad event 5", "- | 5 | sdm: bad event 5")
        copies.alter(self.top, "worked/check.txt", "bad event 6: line/", "bad event 6/")
        told = self.told("scripts/house", "check", "worked", "--tables", "check")
        for part in ("    worked   0,yes\n    program  0,no", "the code differs", "the fault line differs", "3 failed"):
            self.assertIn(part, told)

    def test_worked_runs_that_can_not_be_read_are_told(self) -> None:
        copies.alter(self.top, "worked/check.txt", r" \| 0,no/", "")
        self.assertIn("has 5 fields and not 6", self.told("scripts/house", "check", "worked", "--tables", "check"))
        copies.alter(self.top, "worked/base.toml", "^svl = .*\n", "")
        self.assertIn(
            "base.toml has no `svl = 100000`", self.told("scripts/house", "check", "worked", "--tables", "display")
        )
        (self.top / "worked/trial.txt").write_text("# none\n")
        self.assertIn("trial has no run", self.told("scripts/house", "check", "worked", "--tables", "trial"))

    def test_a_worked_journey_that_is_answered_otherwise_is_told(self) -> None:
        self.assertIn(
            "worked: 6 passed, 0 failed",
            self.told("scripts/house", "check", "worked", "--tables", "journeys/records", status=0),
        )
        copies.alter(self.top, "worked/journeys/records.txt", "^end 200000 200000 0$", "end 200000 150000 0")
        copies.alter(self.top, "worked/journeys/openings.txt", "= 6 refused: supervised .*$", "= taken")
        told = self.told("scripts/house", "check", "worked", "--tables", "journeys/records", "journeys/openings")
        for part in ("journeys/records:", "journeys/openings:16: run\n  the fault line differs", "2 failed"):
            self.assertIn(part, told)

    def test_worked_journeys_that_can_not_be_read_are_told(self) -> None:
        for section in ("gradient 0", "train length", "trains length 1", "end 1 2"):
            with self.subTest(section):
                (self.top / "worked/journeys/records.txt").write_text(f"{section}\nread,0,0,0,0,0,0,0 = taken\n")
                self.assertIn(
                    "records:1 is no journey",
                    self.told("scripts/house", "check", "worked", "--tables", "journeys/records"),
                )

    def test_certificates_that_are_answered_by_yes_pass(self) -> None:
        self.assertRegex(
            self.told("scripts/house", "check", "certificates", status=0), "certificates: [1-9][0-9]* passed, 0 failed"
        )

    def test_a_certificate_that_is_not_answered_by_yes_is_told(self) -> None:
        for filtered in ("sed 's/,yes$/,no/'", r"sed 's/^mark,\([0-9]*\),0$/mark,\11,0/'", "sed '/,yes$/d'"):
            with self.subTest(filtered):
                copies.stand_in(self.top, filtered)
                copies.marked_as_it_is(self.top)
                self.assertIn("claims are answered by yes", self.told("scripts/house", "check", "certificates"))

    def test_a_model_that_differs_from_the_program_is_told(self) -> None:
        module, text, misread = next(each for each in MISREADINGS if each[0] == "triggers")
        copies.alter(self.top, f"python/sdm_evidence/model/{module}.py", re.escape(text), misread.replace("\\", r"\\"))
        self.assertRegex(self.told(*AT_THE_CEILING), r"row \d+ differs")


CALLS = [name for name, (_, given) in header.functions(header.text()).items() if given and not name.endswith("_text")]
CLOSED = "unsigned sdm_layout(void) { return 2; }\nunsigned sdm_version(void) { return 0; }\n" + "".join(
    f"unsigned {call}(void *h) {{ (void)h; return 1; }}\n" for call in CALLS
)


class Replays(OverACopy):
    """The C side, over a stand-in for the program, for replay, and for the library."""

    parts = [*OverACopy.parts, "c", *examples("approach", "display", "refused-data", "refused-record")]

    def setUp(self) -> None:
        super().setUp()
        copies.stand_in(self.top)
        copies.marked_as_it_is(self.top)

    def library(self, more: str = "") -> str:
        """A library whose every call answers that there is no supervisor, with more code in it."""
        (self.top / "closed.c").write_text(CLOSED + more)
        for words in (["cc", "-c", "closed.c"], ["ar", "rc", "libclosed.a", "closed.o"]):
            subprocess.run(words, cwd=self.top, check=True)
        return str(self.top / "libclosed.a")

    def compared(self, filtered: str = "cat", code: str = "", status: int = 1) -> str:
        """What is told where replay does as the model, its rows through a filter or with another exit status."""
        copies.stand_in(self.top, filtered, code, name="replay")
        (self.top / "compare").write_text("#!/bin/bash\nexec scripts/python -m scripts.c.replay replay --examples\n")
        (self.top / "compare").chmod(0o755)
        return self.told("compare", status=status)

    def test_a_replay_that_does_as_the_program_passes(self) -> None:
        self.assertIn("examples: 12 the same, 0 differ", self.compared(status=0))

    def test_another_row_line_or_code_is_told(self) -> None:
        told = self.compared("sed 's/^0,T,W/0,T,X/; s/,0,E,200010$/,0,S,200010/'")
        self.assertRegex(told, r"examples/approach: run\n  row 1 differs")
        self.assertRegex(told, r"examples/approach: display\n  row 1 differs")
        self.assertIn("the code differs", self.compared("cat", "1"))

    def test_records_that_are_not_plain_must_not_be_taken(self) -> None:
        with (self.top / EXAMPLE / "input").open("a") as records:
            records.write('"read",60,900000,900000,900000,0,0,0\n')
        self.assertRegex(self.compared(), r"replay   0,T,W")

    def test_a_warning_in_c_is_told(self) -> None:
        copies.alter(self.top, "c/journey.c", r"\Z", "static int unused;\n")
        self.assertIn("unused", self.told("scripts/house", "check", "c", self.library()))

    def test_a_call_whose_answer_may_be_overlooked_is_told(self) -> None:
        copies.alter(self.top, "c/sdm.h", r"^SDM_MUST_CHECK (uint32_t sdm_revoke)", r"\1")
        self.assertIn(
            "cc warns of 13 answers that aren't looked at, of 13",
            self.told("scripts/house", "check", "c", self.library()),
        )
        copies.alter(self.top, "c/sdm.h", r"^uint32_t sdm_revoke", "SDM_MUST_CHECK uint32_t sdm_revoke")
        copies.alter(self.top, "c/sdm.h", r"^#elif defined\(__GNUC__\)", "#elif 0")
        self.assertIn(
            "cc warns of 0 answers that aren't looked at, of 14",
            self.told("scripts/house", "check", "c", self.library()),
        )

    def test_a_library_that_asks_for_more_is_told(self) -> None:
        more = "int rand(void); int more(void); int more(void) { return rand(); }\n"
        self.assertIn("what a C compiler brings: rand", self.told("scripts/house", "check", "c", self.library(more)))

    def test_a_library_with_memory_of_its_own_is_told(self) -> None:
        more = "int kept; int keep(int more); int keep(int more) { return kept += more; }\n"
        self.assertIn("memory of its own: .bss", self.told("scripts/house", "check", "c", self.library(more)))

    def test_a_library_that_answers_otherwise_is_told(self) -> None:
        self.assertIn(
            "fault: not so of data that are refused", self.told("scripts/house", "check", "c", self.library())
        )

    def test_a_shared_library_that_answers_otherwise_is_told(self) -> None:
        self.assertIn(
            "SdmError: the supervisor is closed", self.told("scripts/house", "check", "library", self.library())
        )

    def test_rides_over_a_library_that_answers_otherwise_are_told(self) -> None:
        self.assertIn("'unjudged': 200", self.told("scripts/house", "check", "rides", self.library()))


class Gate(OverACopy):
    parts = [*OverACopy.parts, *examples("approach")]

    def test_each_part_of_the_table_is_there(self) -> None:
        for part in [*chain.from_iterable(CHECKS.values()), *WRITERS, *SHOWN, *TRIES, *OTHERS]:
            with self.subTest(part.does):
                first = part.does.split()[0]
                if "/" in first:
                    self.assertTrue((copies.TOP / "scripts" / first).is_file())
                elif first not in IN_A_BROWSER:
                    self.assertTrue(callable(import_module(f"scripts.{first}").main))

    def test_each_module_with_a_main_is_in_the_table(self) -> None:
        parts = [*chain.from_iterable(CHECKS.values()), *WRITERS, *SHOWN, *TRIES, *OTHERS]
        named = {part.does.split()[0] for part in parts} | {"__main__"}
        of_bash = {"c.calls", "c.changes", "c.replay", "costs"}  # which scripts/c/check, check-calls and .ci/run run
        for path in sorted((copies.TOP / "scripts").rglob("*.py")):
            module = ".".join(path.relative_to(copies.TOP / "scripts").with_suffix("").parts)
            if not module.startswith("tests.") and re.search(r"^def main\(", path.read_text(), re.M):
                self.assertIn(module, named | of_bash)

    def test_the_gate_runs_each_check_but_two(self) -> None:
        gate = (copies.TOP / ".ci" / "run").read_text()
        self.assertRegex(gate, r"(?m)^scripts/house check before$")
        self.assertRegex(gate, r"(?m)^scripts/house check after$")
        self.assertEqual([part.name for part in CHECKS["elsewhere"]], ["processors-all", "release"])

    def test_a_check_that_fails_fails_the_command(self) -> None:
        copies.alter(self.top, "python/sdm/curves.py", "^import csv$", "import csv\nfrom .rows import Row")
        told = self.told("scripts/house", "check", "interface", "imports")
        self.assertIn("== imports failed", told)
        self.assertIn("house: failed: imports, interface", told)  # there is no c/sdm.h
        self.assertIn("there is no check link", self.told("scripts/house", "check", "link", status=2))

    def test_a_folder_without_tests_is_told(self) -> None:
        for folder, script in (
            ("python/tests/laboratory", "laboratory"),
            ("python/tests/model", "model"),
        ):
            for path in (self.top / folder).glob("test_*.py"):
                path.unlink()
            copies.stand_in(self.top)
            copies.marked_as_it_is(self.top)
            with self.subTest(script):
                more = ["--journeys", "1"] if script == "model" else []
                self.assertIn("no tests ran", self.told("scripts/house", "check", script, *more))

    def test_each_other_part_is_reached_by_its_name(self) -> None:
        for part in OTHERS:
            _, told = copies.ended(self.top, "scripts/house", part.name, "no-such-word")
            self.assertNotIn("scripts/house check [NAME..]", told, part.name)

    def test_setup_tells_what_it_can_not_install(self) -> None:
        tools = self.top / "tools-there"
        tools.mkdir()
        self.assertIn("rt, the toolchain's command", self.set_up(tools, {}))
        installed = ["rt", "gnuplot", "groff", "cc", "valgrind", "black", "flake8", "mypy", "shellcheck"]
        installed += ["wasm2c", "wasm-opt", "node", "qemu-aarch64", "pkg-config", "make", "dpkg-deb"]
        installed += ["aarch64-linux-gnu-gcc"]
        there = dict.fromkeys(installed, "exit 0") | {"python3": "echo Python 3.9; exit 1"}
        self.assertIn("Python from 3.11 on is needed", self.set_up(tools, there))

    def set_up(self, folder: Path, programs: dict[str, str]) -> str:
        """What scripts/setup tells where only some programs are there."""
        for name, does in programs.items():
            (folder / name).write_text(f"#!/bin/bash\n{does}\n")
            (folder / name).chmod(0o755)
        for path in map(Path, ("/bin/bash", "/usr/bin/dirname")):
            if not (folder / path.name).exists():
                (folder / path.name).symlink_to(path)
        status, told = copies.ended(self.top, "scripts/setup", path=str(folder))
        self.assertEqual(status, 1, told)
        return told
