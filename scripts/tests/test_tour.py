"""The check of the tour tells a page that shows something else than is written, and a program that writes it."""
from __future__ import annotations

from pathlib import Path

import pytest

from scripts.product import tour

STEP = "```sh\necho one; tools/model flat 100 100000 < {}\n```\n\n```\none\n{}\n```\n"


def checked(at: Path, page: str, program: str, monkeypatch: pytest.MonkeyPatch) -> int:
    """The exit status over a page, with a program in bash."""
    (at / "page").write_text(page)
    (at / "program").write_text(f"#!/bin/bash\n{program}\n")
    (at / "program").chmod(0o755)
    (at / "line").write_text("0,799990,20000\n")
    monkeypatch.setattr(tour, "PAGE", at / "page")
    return tour.main(["--program", str(at / "program")])


CASES = [  # what the page shows, what the program does, and what is told
    ("0,800000,1,0", "echo 0,800000,1,0", None),
    ("0,800001,1,0", "echo 0,800000,1,0", "shows '0,800001,1,0', and not '0,800000,1,0'"),
    ("0,800000,1,0", "echo 0,800000,0,0", "with the program: shows"),
    ("0,800000,1,0", "echo 0,800000,1,0; exit 3", "and not 'exit status 3'"),
]


@pytest.mark.parametrize("shown, does, told", CASES)
def test_what_differs_is_told(
    shown: str,
    does: str,
    told: str | None,
    tmp_path: Path,
    monkeypatch: pytest.MonkeyPatch,
    capsys: pytest.CaptureFixture[str],
) -> None:
    page = STEP.format(tmp_path / "line", shown)
    assert checked(tmp_path, page, does, monkeypatch) == (told is not None)
    assert (told or "tour: 1 passed, 0 failed") in capsys.readouterr().out


def test_commands_without_what_they_write_are_told(
    tmp_path: Path, monkeypatch: pytest.MonkeyPatch, capsys: pytest.CaptureFixture[str]
) -> None:
    page = STEP.format(tmp_path / "line", "0,800000,1,0") + "```sh\necho two\n```\n"
    assert checked(tmp_path, page, "echo 0,800000,1,0", monkeypatch) == 1
    assert "commands without what they write" in capsys.readouterr().out
