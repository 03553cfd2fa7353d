"""The notebook of docs/ runs through, shows its tables and its picture, and keeps both where it is exported."""
import base64
import os
import re
import subprocess
import sys
import tempfile
import unittest
from pathlib import Path

from tests.folders import EXAMPLES, TOP


class Notebook(unittest.TestCase):
    def test_it_runs_through_and_is_exported(self):
        with tempfile.TemporaryDirectory() as room:
            words = ["--to", "html", "--execute", "--output-dir", room, "--ExecutePreprocessor.timeout=120"]
            paths = {"HOME": room, "JUPYTER_ALLOW_INSECURE_WRITES": "1", "IPYTHONDIR": room}
            done = subprocess.run(
                [sys.executable, "-m", "nbconvert", *words, str(TOP / "docs" / "PYTHON.ipynb")],
                cwd=TOP,
                env=os.environ | paths | {"PYTHONPATH": str(TOP / "python")},
                capture_output=True,
                text=True,
                check=False,
            )
            self.assertEqual(done.returncode, 0, done.stderr)
            page = (Path(room) / "PYTHON.html").read_text()
        self.assertEqual(page.count('<table border="1" class="dataframe">'), 3)
        (picture,) = re.findall(r'<img[^>]* src="data:image/svg\+xml;base64,([^"]*)"', page)
        drawn = (EXAMPLES / "interventions" / "picture.svg").read_bytes()
        self.assertEqual(base64.b64decode(picture), drawn)
