"""What keeps a data part from being a document, by the messages of Python's reader of TOML 1.0.

The reader stops at its first fault. So that the others are told too, the line of a fault is left out and the rest is
read again, as long as that line holds a key.
"""
import re
import tomllib
from typing import Any, NamedTuple

from sdm.exact import KIND, Key, MOST_DEEP, Table, is_in_bounds, known_keys

from sdm.findings.data_part import AUTHORITIES, NAMES_OF_KINDS, SECTIONS, path_text
from sdm.findings.expected import due, range_of
from sdm.findings.finding import Finding
from sdm.findings.toml_places import KeyPath, Places

PLACED = re.compile(r"(.*) \(at (?:line (\d+), column (\d+)|end of document)\)", re.DOTALL)
HEADER = re.compile(r"\s*\[+\s*([\w. ]+?)\s*\]+")
KEYED = re.compile(r"\s*(?:[\w-]+\s*\.\s*)*([\w-]+)\s*(=?)\s*([^#]*)")
MOST_LINES = 64  # that are left out
REST = "a TOML document up to its end"


class ReadDocument(NamedTuple):
    """What could be read: the table (None where nothing could), its text, the keys on lines left out, the faults."""

    table: Table | None
    text: str
    unread: frozenset[str]
    findings: list[Finding]


def read_text(data: bytes) -> ReadDocument:
    """The table of a data part with the faults of its syntax."""
    try:
        text = data.decode("utf-8").removeprefix("\ufeff")
    except UnicodeDecodeError as why:
        line = data.count(b"\n", 0, why.start) + 1
        column = len(data[data.rfind(b"\n", 0, why.start) + 1 : why.start].decode("utf-8")) + 1
        found = f"the byte 0x{data[why.start]:02x}"
        return ReadDocument(None, "", frozenset(), [Finding(line, column, "text", found, "UTF-8")])
    findings: list[Finding] = []
    unread: set[str] = set()
    lines = text.split("\n")
    for _ in range(MOST_LINES):
        try:
            table = tomllib.loads("\n".join(lines))
            whole = "\n".join(lines)
            return ReadDocument(table, whole, frozenset(unread), findings + out_of_bounds(table, whole))
        except RecursionError:
            findings.append(Finding(None, None, "text", "deeply nested values", f"at most {MOST_DEEP} deep"))
            break
        except ValueError as why:
            number = fault_line(str(why), lines)
            findings.append(syntax_fault(str(why), lines, number))
            if number is None or not (key := KEYED.match(lines[number])) or lines[number].lstrip().startswith("["):
                break
            unread.add(key[1])
            lines[number] = ""
    return ReadDocument(None, text, frozenset(unread), findings)


def fault_line(message: str, lines: list[str]) -> int | None:
    """The index of the line that a message is about, where leaving it out can help."""
    told = PLACED.fullmatch(message)
    if told is None or told[2] is None:
        last = next((i for i in range(len(lines) - 1, -1, -1) if lines[i].strip()), None)
        return last if told is not None and last is not None and "=" in lines[last] else None
    number = int(told[2]) - 1
    # A fault at a line's very end may be told at the start of the next one, or behind it.
    while number > 0 and (number >= len(lines) or not lines[number].strip()):
        number -= 1
    return number


def syntax_fault(message: str, lines: list[str], number: int | None) -> Finding:
    """A message of the reader as a finding, with what the key on that line takes."""
    told = PLACED.fullmatch(message)
    what = (told[1] if told is not None else message).rstrip(".")
    if number is None:
        return Finding(len(lines), None, "text", what[0].lower() + what[1:], REST)
    is_there = told is not None and told[2] is not None and int(told[2]) == number + 1
    column = int(told[3]) if told is not None and is_there else None
    line, section = lines[number], section_at(lines, number)
    key = known_key(section, line)
    text = line.split("#")[0].strip()
    where = ".".join(part for part in (section, key.name if key is not None else "") if part) or "text"
    expected = due(key, range_of(key)) if key is not None else REST
    if (keyed := KEYED.match(line)) and section == "authority" and keyed[1] == KIND.name:
        where, expected = f"{section}.{KIND.name}", NAMES_OF_KINDS
    return Finding(
        number + 1, column, where, f"`{text}`: {what[0].lower() + what[1:]}", expected, line_hint(text, what)
    )


def section_at(lines: list[str], number: int) -> str:
    """The section whose header stands last before a line."""
    headers = [found[1].replace(" ", "") for line in lines[:number] if (found := HEADER.match(line))]
    return headers[-1] if headers else ""


def known_key(section: str, line: str) -> Key | None:
    """The key on a line, where it is known in its section."""
    found = KEYED.match(line)
    homes = {name: [made] for name, made in SECTIONS.items()} | {"authority": list(AUTHORITIES.values())}
    keys = [key for made in homes.get(section or "root", []) for key in known_keys(made, 2)]
    return next((key for key in keys if found is not None and key.name == found[1]), None)


def line_hint(text: str, what: str) -> str:
    """The likely slip on a line that is no TOML."""
    keyed = KEYED.match(text)
    value = keyed[3].strip() if keyed is not None else ""
    if what.startswith("Cannot overwrite"):
        return "the key is given twice"
    if keyed is not None and not keyed[2]:
        return "a key is followed by = and its value"
    if re.fullmatch(r"[+-]?\d+,\d+", value):
        return "a number has no decimal comma"
    if value.lower() in ("true", "false", "yes", "no", "on", "off"):
        return "a flag is true or false, in small letters"
    if re.fullmatch(r"[+-]?0\d+", value):
        return "a number has no leading zeros"
    if re.fullmatch(r"[+-]?[\d_.]+\s*[A-Za-z%/]\S*", value):
        return "a number has no unit behind it"
    if keyed is not None and keyed[1] == KIND.name and re.fullmatch(r"[A-Za-z]\w*", value):
        return f'a text has quotes: "{value}"'
    return "the value is missing" if keyed is not None and keyed[2] and not value else ""


def out_of_bounds(table: Table, text: str) -> list[Finding]:
    """The values that Python reads and the program doesn't: numbers beyond 64 bits, what nests too deep."""
    if is_in_bounds(table):
        return []
    places, found = Places(text), list[Finding]()
    for path, value in numbers((), table):
        if not is_in_bounds(value):
            line, column = places.of_value(path) or (None, None)
            found.append(Finding(line, column, path_text(path), str(value), "a number of 64 bits"))
    return found or [Finding(None, None, "text", "deeply nested values", f"at most {MOST_DEEP} deep")]


def numbers(path: KeyPath, value: Any) -> list[tuple[KeyPath, int]]:
    """All whole numbers of a document, with their paths."""
    if isinstance(value, (dict, list)):
        inner = value.items() if isinstance(value, dict) else enumerate(value)
        return [found for name, each in inner for found in numbers((*path, name), each)]
    return [(path, value)] if isinstance(value, int) else []
