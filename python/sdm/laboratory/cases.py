"""Journeys as files, as in examples/ and vectors/: a folder with `input`, and beside it what the input leads to.

`args` are the words, one a line (`run` where the file is absent), `rows` is what goes to standard output, `err` what
goes to standard error, `code` the exit status. Where none of these three is there, nothing is due. Of the text that
`upgrade` writes the table is due, and not its bytes.
"""
import tomllib
from collections.abc import Iterable, Iterator, Sequence
from pathlib import Path
from typing import NamedTuple

from sdm.laboratory.program import Fault, Result


class Case(NamedTuple):
    """A journey; `due` is what the files tell, None where they tell nothing."""

    name: str
    words: list[str]
    data: bytes
    due: Result | None


DUE = {"rows": "", "err": "", "code": "0"}  # the files that tell what is due, and what counts for one that is absent


def text_of(path: Path, absent: str) -> str:
    """The text of a file, or what counts where there is none."""
    try:
        return path.read_bytes().decode(errors="replace")
    except FileNotFoundError:
        return absent


def due_of(folder: Path) -> Result | None:
    """The result that the files of a folder tell."""
    if not any((folder / name).exists() for name in DUE):
        return None
    rows, err, code = (text_of(folder / name, absent) for name, absent in DUE.items())
    return Result(rows, err, int(code))


def case_of(folder: Path, name: str) -> Case:
    """The journey of a folder."""
    try:
        words = text_of(folder / "args", "run\n").splitlines()
        return Case(name, words, (folder / "input").read_bytes(), due_of(folder))
    except (OSError, ValueError) as why:
        raise Fault(f"{folder} is no journey: {why}.") from None


def cases_under(top: Path) -> list[Case]:
    """The journeys of all folders below a folder, by their paths."""
    folders = sorted(path.parent for path in top.rglob("input"))
    return [case_of(folder, str(folder.relative_to(top.parent))) for folder in folders]


def values_of(value: object, path: str = "") -> Iterator[str]:
    """A line for each value in a table, by its path, in the order of the names."""
    if isinstance(value, dict) and value:
        for name in sorted(value):
            yield from values_of(value[name], f"{path}.{name}" if path else name)
    elif isinstance(value, list) and value:
        for number, each in enumerate(value, 1):
            yield from values_of(each, f"{path}[{number}]")
    else:
        yield f"{path} = {value!r}"


def compared(words: list[str], rows: str) -> list[str]:
    """The lines by which a text is compared: of what `upgrade` writes those of its table, so that it may be laid out
    in any way; the text itself where it has no table, or a dividing line stands in it."""
    lines = rows.split("\n")
    if words == ["upgrade"] and rows and not any(line.rstrip("\r") == "%%" for line in lines):
        try:
            return [*values_of(tomllib.loads(rows)), ""]
        except ValueError:
            pass
    return lines


def difference(names: tuple[str, str], one: Result, other: Result, words: Sequence[str] = ("run",)) -> list[str]:
    """Where two results of some words differ first, in lines that show both texts under their names; none where they
    are the same."""

    def shown(texts: Iterable[object]) -> list[str]:
        return [f"    {name:9}{text}" for name, text in zip(names, texts)]

    lines = compared(list(words), one.rows), compared(list(words), other.rows)
    for number, pair in enumerate(zip(*lines), 1):
        if pair[0] != pair[1]:
            return [f"  row {number} differs", *shown(text or "(no such row)" for text in pair)]
    if len(lines[0]) != len(lines[1]):
        number = min(map(len, lines))
        return [f"  row {number} differs", *shown(text[number - 1] or "(no such row)" for text in lines)]
    if one.err != other.err:
        return ["  the fault line differs", *shown(each.err.rstrip("\n") or "(none)" for each in (one, other))]
    if one.code != other.code:
        return ["  the code differs", *shown((one.code, other.code))]
    return []
