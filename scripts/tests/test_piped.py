"""A reader that closes the pipe ends a script without a traceback."""
from __future__ import annotations

import subprocess
import sys
import unittest

from scripts.tests import copies

PRINTS = """
import sys
from sdm.laboratory.piped import end
{main}
end(main)
"""


class Piped(unittest.TestCase):
    def ended(self, main: str, lines_read: int) -> tuple[int, str]:
        """How a script ends of which some lines are read, and what it tells of an error."""
        words = [sys.executable, "-B", "-c", PRINTS.format(main=main)]
        with subprocess.Popen(
            words, cwd=copies.TOP, stdout=subprocess.PIPE, stderr=subprocess.PIPE, text=True
        ) as script:
            assert script.stdout and script.stderr
            for _ in range(lines_read):
                script.stdout.readline()
            script.stdout.close()
            return script.wait(60), script.stderr.read()

    def test_a_closed_pipe_ends_it_without_a_word(self) -> None:
        many = "def main():\n    for number in range(100000):\n        print(number)"
        self.assertEqual(self.ended(many, 1), (141, ""))

    def test_a_pipe_that_was_closed_before_the_first_line_does_too(self) -> None:
        one = "import time\ndef main():\n    time.sleep(1)\n    print(1)"
        self.assertEqual(self.ended(one, 0), (141, ""))

    def test_it_ends_with_what_its_work_answers(self) -> None:
        self.assertEqual(self.ended("def main():\n    return 3", 0), (3, ""))
        self.assertEqual(self.ended("def main():\n    sys.exit(4)", 0), (4, ""))
        self.assertEqual(self.ended("def main():\n    sys.exit('why')", 0), (1, "why\n"))

    def test_scripts_end_so(self) -> None:
        differs = ["scripts/house", "check", "worked", "--program", "/bin/true", "--tables", "words"]
        for words in (
            ["scripts/house", "show", "believed"],
            ["scripts/house", "show", "clauses"],
            ["scripts/house", "show", "manual", "help"],
            differs,
        ):
            with self.subTest(words[0]):
                with subprocess.Popen(
                    words, cwd=copies.TOP, stdout=subprocess.PIPE, stderr=subprocess.PIPE, text=True
                ) as script:
                    assert script.stdout and script.stderr
                    script.stdout.close()
                    script.wait(120)
                    self.assertEqual(script.stderr.read(), "")
