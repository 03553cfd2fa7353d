"""A program that is named is taken as it is; the built one only where its mark holds. The version names the commit."""
import os
import pty
import subprocess
import sys
import tempfile
import unittest
from pathlib import Path
from unittest import mock

from sdm.laboratory import program, version

from tests.folders import TOP
from tests.tool import program as program_of
from tests.tool import tool

CHANGED = "# Changelog\n\n## [Unreleased]\n\n### Added\n\n- A thing.\n\n## [0.1.0]\n"


class Programs(unittest.TestCase):
    def setUp(self):
        room = tempfile.TemporaryDirectory()
        self.addCleanup(room.cleanup)
        self.path = Path(program_of(Path(room.name), "true"))

    def test_the_built_one_needs_its_mark_and_a_named_one_doesn_t(self):
        """Also where the one that is named is the built one."""
        with mock.patch.object(program, "PROGRAM", program.Product("program", self.path)):
            with self.assertRaisesRegex(program.Fault, "has no mark of the sources"):
                program.built(None)
            self.assertEqual(program.built(self.path), self.path.resolve())

    def test_what_is_no_program(self):
        self.path.chmod(0o644)
        with self.assertRaisesRegex(program.Fault, "is no program"):
            program.built(self.path)
        with self.assertRaisesRegex(program.Fault, "There is no program at /nowhere"):
            program.built(Path("/nowhere"))


class Versions(unittest.TestCase):
    def told(self, changelog, head):
        version.version.cache_clear()
        self.addCleanup(version.version.cache_clear)
        with mock.patch.object(version, "changelog", lambda: changelog), mock.patch.object(
            version, "head", lambda: head
        ):
            return tool("version")[1]

    def test_past_a_release_it_has_the_commit(self):
        commit = "db6a866e" + "0" * 32
        self.assertRegex(self.told(CHANGED, commit), r"^sdm \d+\.\d+\.\d+\+db6a866e\n$")
        self.assertRegex(self.told(CHANGED.replace("### Added\n\n- A thing.\n", ""), commit), r"^sdm \d+\.\d+\.\d+\n$")
        self.assertRegex(self.told("", commit), r"^sdm \d+\.\d+\.\d+\n$")
        self.assertEqual(tool("version", "more")[0], 2)

    def test_each_tool_tells_it(self):
        told = tool("version")
        self.assertEqual([tool(name, "--version") for name in ("why", "campaign", "explain")], 3 * [told])
        done = subprocess.run(
            [sys.executable, "-m", "sdm", "--version"], cwd=TOP / "python", capture_output=True, text=True
        )
        self.assertEqual((done.returncode, done.stdout, done.stderr), told)
        self.assertEqual(tool("model", "--version")[0], 1, "the model's words are the program's")


class Pointer(unittest.TestCase):
    def test_a_fault_line_at_a_terminal_is_followed_by_how_it_is_explained(self):
        pointer = "`tools/explain INPUT` names each fault with its line and what is expected.\n"
        for data, line in ((b"%%\n", "sdm: bad data: missing version\n"), (b"", "sdm: bad data: no %% line\n")):
            terminal, its_end = pty.openpty()
            subprocess.run([TOP / "tools" / "model", "run"], input=data, stderr=its_end)
            os.close(its_end)
            self.assertEqual(os.read(terminal, 4096).decode().replace("\r\n", "\n"), line + pointer)
            os.close(terminal)
            done = subprocess.run([TOP / "tools" / "model", "run"], input=data, stderr=subprocess.PIPE)
            self.assertEqual(done.stderr.decode(), line)
