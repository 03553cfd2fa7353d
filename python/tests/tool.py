"""Runs the tools as a laboratory does, but in this process; programs that stand in for the built one."""
import contextlib
import io
import sys
from unittest import mock

from sdm.__main__ import run


def program(folder, script):
    """A program of a shell's lines."""
    path = folder / "sdm"
    path.write_text(f"#!/bin/sh\n{script}\n")
    path.chmod(0o755)
    return str(path)


def tool(name, *words, data=b"", run=run):
    """The code, the output and the errors of a tool, which is one of the laboratory's by itself."""
    out, err = io.StringIO(), io.StringIO()
    given = io.TextIOWrapper(io.BytesIO(data))
    with mock.patch.object(sys, "stdin", given), contextlib.redirect_stdout(out), contextlib.redirect_stderr(err):
        try:
            code = run(name, [str(word) for word in words])
        except SystemExit as end:
            code = end.code
    return code, out.getvalue(), err.getvalue()
