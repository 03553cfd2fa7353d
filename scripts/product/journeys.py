"""Reads the journeys of worked/journeys, whose form worked/README.md tells: each is a run over base data with other
numbers, and its records are answered one by one.
"""
from __future__ import annotations

import re
from collections.abc import Callable, Iterator
from copy import deepcopy
from pathlib import Path
from typing import Any

import tomllib

from sdm.laboratory.cases import Case
from sdm.laboratory.program import Fault, Result
from sdm_evidence.makers.toml_text import toml

Data = dict[str, Any]
Signs = Callable[[str], str]

FAULT = re.compile(r"(\d+) (\D.*)")  # an exit status and the line of a fault, without its head
LISTS = {
    "gradient": ("start", "grad"),
    "speed": ("start", "speed", "delayed"),
    "adhesion": ("start", "end"),
    "no_special": ("start", "end"),
}
AUTHORITIES = {"end": ("eoa", "svl", "release"), "limit": ("loa", "speed")}
SECTIONS = {"train", "national", "track", "band", "bands", "uppers", *LISTS, *AUTHORITIES}
UNDIVIDED = {"upgrade", "drive"}  # commands that read a data part alone


def is_section(text: str) -> bool:
    """Whether a text says what data have otherwise, and is no record."""
    return text.split(";")[0].split(" ")[0] in SECTIONS


def value_of(key: str, word: str, before: object) -> bool | int:
    """The value that a word writes: true or false where the key had one of these, else a number."""
    return word == "1" if isinstance(before, bool) or key == "delayed" else int(word)


def set_keys(table: Data, words: list[str]) -> None:
    """Sets the keys of a table, which words name by turns with their values; `-` takes a key away."""
    for key, word in zip(words[::2], words[1::2], strict=True):
        if word == "-":
            table.pop(key, None)
        else:
            table[key] = value_of(key, word, table.get(key))


def entries(keys: tuple[str, ...], words: list[str]) -> list[Data]:
    """The entries of a list, as many words for each as it has keys."""
    each = [words[at : at + len(keys)] for at in range(0, len(words), len(keys))]
    return [{key: value_of(key, word, None) for key, word in zip(keys, entry, strict=True)} for entry in each]


def set_section(data: Data, band: Data, text: str) -> None:
    """Sets what a section says; `band` is a band of the base data."""
    name, *words = text.split()
    bands, track = data["train"]["band"], data["track"]
    match name:
        case "train" | "national" | "track":
            set_keys(data[name], words)
        case "band":
            bands += [dict(band) for _ in range(len(bands), int(words[0]))]
            set_keys(bands[int(words[0]) - 1], words[1:])
        case "bands":
            for each in bands:
                set_keys(each, words)
        case "uppers":
            bands[:] = [dict(bands[at] if at < len(bands) else band) for at in range(len(words))]
            for each, word in zip(bands, words, strict=True):
                set_keys(each, ["upper", word])
        case "end" | "limit":
            numbers = (int(word) for word in words)
            data["authority"] = {"kind": name, **dict(zip(AUTHORITIES[name], numbers, strict=True))}
        case _:
            track[name] = entries(LISTS[name], words)


def changed(data: Data, band: Data, line: str) -> Data:
    """Data with what a line says otherwise, whose sections are parted by `;`."""
    found = deepcopy(data)
    for section in line.split(";"):
        set_section(found, band, section.strip())
    return found


class Journey:
    """A block of lines: the words and the data that its runs share, and the records of the run that goes on."""

    def __init__(self, base: Data, signs: Signs) -> None:
        self.words, self.data, self.signs = ["run"], base, signs
        self.band = dict(base["train"]["band"][0])
        self.name, self.records, self.out = "", "", ""

    def case(self, data: Data, code: int = 0, err: str = "") -> Case:
        """The run up to here over data; the next begins with no record."""
        divided = "" if self.words[0] in UNDIVIDED else "%%\n"
        given, due = toml(data) + divided + self.records, Result(self.out, err, code)
        name, self.name, self.records, self.out = self.name, "", "", ""
        return Case(name, self.words, given.encode(), due)

    def answered(self, name: str, asked: str, answer: str) -> Iterator[Case]:
        """Takes a record or an opening with its answer; the runs that end there."""
        opens = not asked or is_section(asked)
        if opens and self.records:
            yield self.case(self.data)
        self.name = self.name or name
        self.records += "" if opens else f"{self.signs(asked)}\n".replace("\n\n", "\n")
        data = changed(self.data, self.band, self.signs(asked)) if asked and opens else self.data
        fault = FAULT.fullmatch(answer)
        if answer != "taken" and not fault:
            self.out += f"{self.signs(answer)}\n".replace("\n\n", "\n")
        if fault:
            yield self.case(data, int(fault[1]), f"sdm: {fault[2]}\n")
        elif opens:
            yield self.case(data)

    def lines(self, table: str, numbered: list[tuple[int, str]]) -> Iterator[Case]:
        """The runs of the block's lines."""
        for number, line in numbered:
            asked, sign, answer = f" {line}".partition(" = ")
            if line.startswith("#"):
                continue
            if sign:
                yield from self.answered(f"{table}:{number}", asked[1:], answer)
            elif line.startswith("words "):
                self.words = line.split()[1:]
            else:
                self.data = changed(self.data, self.band, self.signs(line))
        if self.records:
            yield self.case(self.data)


def blocks(text: str) -> Iterator[list[tuple[int, str]]]:
    """The lines of a table with their numbers, parted where a line is empty."""
    block: list[tuple[int, str]] = []
    for number, line in enumerate([*text.splitlines(), ""], 1):
        if line:
            block.append((number, line))
        elif block:
            yield block
            block = []


def cases_in(path: Path, table: str, base: Path, signs: Signs) -> Iterator[Case]:
    """The runs of a table of journeys."""
    data = {**tomllib.loads(base.read_text()), "version": 2}
    for block in blocks(path.read_text()):
        try:
            yield from Journey(deepcopy(data), signs).lines(table, block)
        except (ValueError, KeyError, IndexError) as why:
            raise Fault(f"{table}:{block[0][0]} is no journey: {why!r}.") from None
