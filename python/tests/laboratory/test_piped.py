"""A reader that closes the pipe ends a tool without a traceback."""
import subprocess
import unittest

from tests.folders import EXAMPLES, TOP

INPUT = str(EXAMPLES / "realistic" / "input")
TOOLS = [
    ["certified", "7"],
    ["curves", INPUT, "1"],
    ["explain", INPUT],
    [
        "import",
        str(EXAMPLES / "recording" / "recording.csv"),
        "--mapping",
        str(EXAMPLES / "recording" / "mapping.toml"),
    ],
    ["journeys", "input", "7"],
    ["why", INPUT, "1"],
]


class Piped(unittest.TestCase):
    def test_a_closed_pipe_ends_each_tool_without_a_traceback(self):
        for name, *words in TOOLS:
            command = [str(TOP / "tools" / name), *words]
            with self.subTest(name):
                with subprocess.Popen(command, stdout=subprocess.PIPE, stderr=subprocess.PIPE, text=True) as tool:
                    tool.stdout.close()
                    self.assertEqual(tool.wait(60), 141)
                    self.assertNotIn("Traceback", tool.stderr.read())
