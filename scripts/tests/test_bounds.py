"""scripts/bounds over small programs: it refuses what it can't bound, and what it bounds takes no more. Stacks are
painted, frames are the compiler's, and instructions are counted by hand."""
from __future__ import annotations

import subprocess
import tempfile
import unittest
from dataclasses import replace
from pathlib import Path

from scripts.bounding.bounds import TABLE
from scripts.bounding.calls import Bounds, bounds_of, run_by
from scripts.bounding.code import Refused
from scripts.bounding.library import Library
from scripts.bounding.table import Bad, Outside, Row, Size, Table, Walk, clause_faults, read, row_faults, rows_anew
from scripts.bounding.work import COUNTS, Work

SOURCES = Path(__file__).parent / "bounded"


def compiled(source: str, folder: Path, *words: str) -> Path:
    """The object of a source."""
    made = folder / "made.o"
    subprocess.run(["gcc", *words, "-c", "-o", made, SOURCES / source], check=True)
    return made


def table_of(loops: dict[str, list[Row]] | None = None, **walks: Walk) -> Table:
    """A table for the sources here."""
    sizes = {"many": Size(9, "things", "sdm_num::Speed::new")}
    outside = {"memset": Outside(8)}
    heap = ["rattle_alloc", "rattle_dealloc"]
    return Table([], ["give_back"], heap, outside, sizes, walks, loops or {})


def library_of(made: Path) -> Library:
    """The functions of an object, which may ask for a heap and for memset."""
    library = Library(outside={"rattle_alloc": 0, "rattle_dealloc": 0, "memset": 8})
    library.add(made)
    return library


class Compiled(unittest.TestCase):
    """What a compiler makes of calls in C."""

    def setUp(self) -> None:
        folder = tempfile.TemporaryDirectory()
        self.addCleanup(folder.cleanup)
        self.folder = Path(folder.name)

    def bounds(self, call: str, table: Table, *words: str) -> Bounds:
        library = library_of(compiled("calls.c", self.folder, *(words or ["-O1"])))
        return bounds_of(call, library, table)

    def refusal(self, call: str) -> str:
        (why,) = self.bounds(call, table_of()).refused
        return why

    def test_what_recurs_is_refused(self) -> None:
        self.assertEqual(self.refusal("recur"), "recursion: recur > recur")

    def test_what_recurs_by_another_function_is_refused(self) -> None:
        self.assertEqual(self.refusal("ask_even"), "recursion: even > odd > even")

    def test_a_call_by_a_pointer_is_refused(self) -> None:
        self.assertIn("by_pointer calls what no symbol names", self.refusal("by_pointer"))

    def test_a_frame_of_changing_size_is_refused(self) -> None:
        self.assertIn("moving sets the stack pointer by `sub", self.refusal("moving"))

    def test_a_function_that_is_nowhere_is_refused(self) -> None:
        self.assertEqual(self.refusal("ask_elsewhere"), "elsewhere is called, and is nowhere")

    def test_a_way_to_the_heap_is_refused(self) -> None:
        self.assertEqual(self.refusal("pass_on"), "the heap: pass_on > take > rattle_alloc")

    def test_a_call_that_frees_may_do_so(self) -> None:
        self.assertEqual(self.bounds("give_back", table_of()).refused, [])

    def test_a_loop_that_no_row_names_is_refused(self) -> None:
        self.assertIn("walk has a loop that scripts/bounds.toml doesn't name: 0, ", self.refusal("walk"))

    def test_no_call_takes_more_stack_than_its_bound(self) -> None:
        for word in ("-O0", "-O1", "-O2", "-Os", "-O3"):
            made = compiled("calls.c", self.folder, word, "-fno-reorder-blocks-and-partition")
            program = self.folder / "paint"
            subprocess.run(["gcc", "-O1", "-o", program, SOURCES / "paint.c", made], check=True)
            painted = subprocess.run([program], check=True, capture_output=True, text=True, timeout=60).stdout
            for line in painted.splitlines():
                call, most = line.split()
                with self.subTest(word, call=call):
                    bound = library_of(made).stack(call).depth
                    self.assertLessEqual(int(most), bound)
                    self.assertLessEqual(bound, int(most) + 64)  # an alignment, and what was left unwritten

    def test_a_jump_table_leads_to_all_its_cases(self) -> None:
        made = compiled("calls.c", self.folder, "-O1")
        code = library_of(made).known["choose"].function.code
        self.assertTrue(any(each.is_jump() and each.is_indirect() for each in code), "the switch is no table")
        self.assertEqual(sorted(library_of(made).known["choose"].frame.calls), ["deep", "leaf"])

    def test_each_jump_table_leads_to_its_own_cases(self) -> None:
        known = library_of(compiled("calls.c", self.folder, "-O1", "-fno-inline")).known["choose_twice"]
        jumps = [each for each in known.function.code if each.is_jump() and each.is_indirect()]
        self.assertEqual(len(jumps), 2, "a switch is no table")
        self.assertEqual(known.loops(), [])  # as if the second switch led to the cases of the first

    def test_each_frame_is_the_compiler_s(self) -> None:
        for word in ("-O1", "-O2", "-Os"):
            library = library_of(compiled("calls.c", self.folder, word, "-fstack-usage", "-mno-red-zone"))
            for line in (self.folder / "made.su").read_text().splitlines():
                place, size, kind = line.split("\t")
                name = place.rpartition(":")[2]
                if kind == "static" and name in library.known and name != "aligned":
                    with self.subTest(word, name=name):
                        self.assertEqual(library.known[name].frame.deepest, int(size))


class Counted(unittest.TestCase):
    """What calls in assembly run."""

    def setUp(self) -> None:
        folder = tempfile.TemporaryDirectory()
        self.addCleanup(folder.cleanup)
        self.library = library_of(compiled("loops.s", Path(folder.name)))
        self.walks = {
            "outer": Walk("here", "outer", "3", clause="sdm_num::Speed::new"),
            "inner": Walk("here", "inner", "halvings(many) + 1", clause="sdm_num::Speed::new"),
            "entered": Walk("here", "two entries", "many", missing="a clause"),
        }
        self.table = table_of(None, **self.walks)
        self.names: dict[str, list[str]] = {"nested": ["outer", "inner"], "entered_twice": ["entered"], "caller": []}
        for name, walks in self.names.items():
            self.named(name, **{walk: self.walks[walk] for walk in walks})

    def named(self, name: str, **walks: Walk) -> None:
        """Makes the loops of a function those of some walks."""
        loops = self.library.known[name].loops()
        self.table.walks |= walks
        self.table.loops[name] = [Row(walk, loop.shape) for walk, loop in zip(walks, loops, strict=True)]

    def counted(self, call: str, kind: str) -> int:
        return Work(self.library, self.table.turns, COUNTS[kind]).of(call)

    def test_an_inner_loop_turns_each_time_that_it_is_entered(self) -> None:
        self.assertEqual(self.counted("nested", "instructions"), 1 + 4 * (2 + 1 + 6 * 3) + 2)

    def test_an_inner_loop_that_is_bounded_in_a_run_turns_so_often_in_all(self) -> None:
        self.table.walks["inner"] = replace(self.walks["inner"], in_run=True)
        self.assertEqual(self.counted("nested", "instructions"), 1 + 4 * (2 + 1 + 3) + 5 * 3 + 2)

    def test_a_loop_may_call_less_often_than_it_turns(self) -> None:
        self.named("calling", calling=Walk("here", "calls", "3", calls="2", missing="a clause"))
        leaf = self.counted("leaf", "instructions")
        self.assertEqual(leaf, 3)
        # two turns call and one doesn't; where it is left it may be behind a call
        self.assertEqual(self.counted("calling", "instructions"), 1 + 2 * 4 + 1 * 3 + 4 + 2 * leaf + 1)

    def test_a_loop_is_left_once_with_what_is_behind_that(self) -> None:
        self.named("left_early", leaving=Walk("here", "left early", "3", missing="a clause"))
        self.assertEqual(self.counted("left_early", "instructions"), 1 + 3 * 8 + (2 + 7))
        self.assertEqual(self.counted("left_early", "accesses"), 3 * 1 + 1)

    def test_a_loop_that_is_bounded_in_a_run_is_left_each_time(self) -> None:
        self.named("left_early", leaving=Walk("here", "left early", "3", in_run=True, missing="a clause"))
        self.assertEqual(self.counted("left_early", "instructions"), 1 + 3 * 8 + (2 + 7))

    def test_a_function_that_ends_by_another_one_runs_that_once(self) -> None:
        self.named("ended_elsewhere", ended=Walk("here", "left for leaf", "5", missing="a clause"))
        self.assertEqual(self.counted("ended_elsewhere", "instructions"), 5 * 3 + 2 + 3)

    def test_what_never_ends_is_refused(self) -> None:
        self.named("endless", never=Walk("here", "endless", "5", missing="a clause"))
        with self.assertRaisesRegex(Refused, "endless never ends"):
            self.counted("endless", "instructions")

    def test_divisions_and_accesses_are_counted(self) -> None:
        self.assertEqual(self.counted("nested", "divisions"), 1)
        self.assertEqual(self.counted("nested", "accesses"), 4 * 6 + 1)

    def test_a_loop_with_two_entries_is_one(self) -> None:
        (loop,) = self.library.known["entered_twice"].loops()
        self.assertRegex(loop.shape, r"^4:[0-9a-f]{4}/2$")
        self.assertEqual(self.counted("entered_twice", "instructions"), 2 + 10 * 2 + 1)

    def test_a_call_weighs_what_it_calls(self) -> None:
        self.assertEqual(self.counted("caller", "instructions"), 4 + self.counted("entered_twice", "instructions"))
        self.assertEqual(self.library.stack("caller").path, [("caller", 16), ("entered_twice", 8)])

    def test_the_walks_by_no_clause_are_told(self) -> None:
        self.assertEqual(bounds_of("caller", self.library, self.table).unproved, ["entered"])
        self.assertEqual(bounds_of("nested", self.library, self.table).unproved, [])

    def faults(self) -> list[str]:
        return list(row_faults(self.table, run_by(self.library, list(self.names))))

    def test_a_table_of_all_loops_has_no_fault(self) -> None:
        self.assertEqual(self.faults(), [])

    def test_a_row_whose_loop_is_gone_is_told(self) -> None:
        self.table.loops["caller"].append(Row("outer", "3:abcd"))
        self.table.loops["gone"] = [Row("outer", "3:abcd")]
        self.assertIn("caller: the loop of a row is gone: outer 3:abcd", self.faults())
        self.assertIn("gone: no bounded call runs it, so the loops of its rows are gone", self.faults())

    def test_a_loop_that_changed_is_told(self) -> None:
        self.table.loops["nested"][1] = Row("inner", "3:abcd")
        shape = self.library.known["nested"].loops()[1].shape
        self.assertIn(f"nested: no row for loop 1, {shape}, where a row has 3:abcd", self.faults())
        with self.assertRaisesRegex(Refused, "nested has a loop that scripts/bounds.toml doesn't name: 1"):
            self.counted("nested", "instructions")

    def test_a_walk_of_no_loop_is_told(self) -> None:
        self.table.walks["more"] = Walk("here", "more", "1", clause="sdm_num::Speed::new")
        self.assertEqual(self.faults(), ["more: no loop is of this walk"])

    def test_the_rows_made_anew_keep_the_walks(self) -> None:
        rows = list(rows_anew(self.table, run_by(self.library, ["nested"])))
        shapes = [loop.shape for loop in self.library.known["nested"].loops()]
        self.assertEqual(rows, ['"nested" = [', f'    "outer {shapes[0]}",', f'    "inner {shapes[1]}",', "]"])

    def test_clauses_that_are_gone_or_missing_are_told(self) -> None:
        self.table.walks["outer"] = replace(self.walks["outer"], clause="sdm_num::Speed::gone")
        self.table.walks["entered"] = replace(self.walks["entered"], missing="")
        self.table.sizes["some"] = Size(1, "things", "")
        self.assertEqual(
            list(clause_faults(self.table)),
            [
                "outer: there is no clause sdm_num::Speed::gone",
                "some: it has neither a clause nor what is missing",
                "entered: it has neither a clause nor what is missing",
            ],
        )

    def test_a_formula_of_anything_else_is_bad(self) -> None:
        self.assertEqual(self.table.value("2 * many - halvings(501)"), 9)
        for formula in ("more", "many ** 2", "print(many)", "halvings(many, 2)"):
            with self.subTest(formula), self.assertRaises(Bad):
                self.table.value(formula)


class Kept(unittest.TestCase):
    """scripts/bounds.toml itself, as far as it can be read without the library."""

    def test_each_row_names_a_walk_and_each_formula_has_a_value(self) -> None:
        table = read(TABLE)
        self.assertEqual({row.walk for rows in table.loops.values() for row in rows}, table.walks.keys())
        for name, walk in table.walks.items():
            with self.subTest(name):
                self.assertGreaterEqual(table.value(walk.turns), 0)

    def test_each_clause_is_there(self) -> None:
        self.assertEqual(list(clause_faults(read(TABLE))), [])
