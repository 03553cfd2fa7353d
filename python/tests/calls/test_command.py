"""A command as a call gives what is stored for it, whether the library or the program answers."""
import ctypes.util
import os
import threading
import unittest
from pathlib import Path
from unittest import mock

import sdm
from sdm import calls
from sdm.laboratory.cases import case_of
from sdm.laboratory.program import Fault, Result

from tests.folders import EXAMPLES

PROGRAM = os.environ.get("SDM_PROGRAM")
BAD_WORDS = Result("", "sdm: bad words\n", 1)
WORDS = ["run", "display", "why"]


def stored():
    """The examples, each with what is due."""
    return [case_of(folder, folder.name) for folder in sorted(EXAMPLES.iterdir()) if (folder / "args").is_file()]


class Command(unittest.TestCase):
    def setUp(self):
        self.library = calls.found()
        self.assertIsNotNone(self.library, "no library is found")

    def test_it_gives_what_is_stored(self):
        for case in stored():
            if case.words != ["live"]:
                with self.subTest(case.name):
                    self.assertEqual(sdm.command(case.words, case.data), case.due)
        self.assertGreater(len(stored()), 30)

    def test_a_text_is_taken_as_bytes_are(self):
        data = (EXAMPLES / "approach" / "input").read_bytes()
        self.assertEqual(sdm.command(["run"], data.decode()), sdm.command(["run"], data))

    def test_a_refused_journey_has_its_line_and_code(self):
        self.assertEqual(sdm.command(["run"], "x"), Result("", "sdm: bad data: no %% line\n", 5))
        self.assertEqual(sdm.command(["upgrade"], "x").code, 5)

    def test_words_of_no_command(self):
        for words in ([], [""], ["runs"], ["run", "more"], ["flat", "4", "100"], ["live", "more"], ["r\udcff"]):
            self.assertEqual(sdm.command(words, ""), BAD_WORDS, words)

    def test_words_with_numbers(self):
        self.assertEqual(sdm.command(["trial", "7", "1"]).rows.partition("\n")[0], "rows 1")
        self.assertEqual(sdm.command(["trial", "7", "100001"]), BAD_WORDS)

    def test_a_zero_byte_in_a_word_is_no_word(self):
        with self.assertRaises(ValueError):
            sdm.command(["run\0more"])

    def test_no_byte_of_one_call_stands_in_the_next(self):
        data = (EXAMPLES / "approach" / "input").read_bytes()
        first = sdm.command(["run"], data)
        for words in (["version"], ["runs"], ["upgrade"]):
            sdm.command(words, data)
            self.assertEqual(sdm.command(["run"], data), first)

    def test_several_threads_call_at_once(self):
        data = (EXAMPLES / "approach" / "input").read_bytes()
        due, found = [sdm.command([word], data) for word in WORDS], []

        def call(first):
            for at in range(60):
                which = (first + at) % len(due)
                found.append(sdm.command([WORDS[which]], data) == due[which])

        threads = [threading.Thread(target=call, args=(first,)) for first in range(4)]
        for thread in threads:
            thread.start()
        for thread in threads:
            thread.join()
        self.assertEqual((len(found), all(found)), (240, True))

    def test_the_program_answers_where_no_library_is_found(self):
        told = Result("rows\n", "", 0)
        with mock.patch.object(calls, "found", return_value=None), mock.patch.object(calls, "built") as built:
            with mock.patch.object(calls, "run", return_value=told) as run:
                self.assertEqual(sdm.command(["run"], "text"), told)
        run.assert_called_once_with(built.return_value, ["run"], b"text")

    def test_a_program_that_is_named_answers(self):
        with self.assertRaisesRegex(Fault, "doesn't run"):
            sdm.command(["run"], "", program="/nowhere/sdm")

    @unittest.skipUnless(PROGRAM, "no program is named")
    def test_a_program_that_is_named_says_the_same(self):
        for case in stored():
            self.assertEqual(sdm.command(case.words, case.data, program=PROGRAM), case.due, case.name)

    def test_what_is_no_library_is_refused(self):
        with self.assertRaises(OSError):
            calls.loaded(str(Path(__file__)))
        with self.assertRaisesRegex(OSError, "is no library of sdm_calls.h"):
            calls.loaded(ctypes.util.find_library("c") or "libc.so.6")
