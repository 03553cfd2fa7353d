"""What c/sdm.h says of structs and calls, for what is generated from it: the fields with their places, the arguments.

The places are those of the header's own assertions, which each compiler checks. A field without one is a fault."""
from __future__ import annotations

import re
from collections.abc import Iterator
from dataclasses import dataclass
from functools import cache

from scripts.c import header
from scripts.processors.tools import must

SIZE = re.compile(r"^SDM_SIZE\((\w+), (\d+)\);$", re.M)
PLACE = re.compile(r"^SDM_AT\((\w+), (\w+), (\d+)\);$", re.M)
STRUCT = re.compile(r"^struct (\w+) \{\n(.*?)^\};", re.M | re.S)
FIELD = re.compile(r"^ +(?:struct )?(\w+) (\w+)(?:\[(\d+)\])?;", re.M)
PROTOTYPE = re.compile(r"^(?:SDM_MUST_CHECK )?((?:const )?\w+ \*?)(sdm_\w+)\(([^;]*)\);", re.M)
ENUM = re.compile(r"^enum (\w+) \{(.*?)\};", re.M | re.S)
MEMBER = re.compile(r"\bSDM_(\w+) = (\d+)")
NUMBERS = {"uint32_t": 4, "int32_t": 4, "int64_t": 8, "uint64_t": 8}
HANDLE = "sdm"
HANDLE_PLACE = "sdm_at"  # the type of what a handle holds, which is a place in memory


@dataclass(frozen=True)
class Field:
    """A field of a struct; `count` bytes where it is an array of them, else 0."""

    name: str
    kind: str  # a number of C, uint8_t, or the name of a struct
    at: int
    count: int = 0


@dataclass(frozen=True)
class Struct:
    """A struct of the header."""

    name: str
    size: int
    fields: tuple[Field, ...]


@dataclass(frozen=True)
class Argument:
    """An argument of a call: a number, the bytes of a data part or their count, a pointer to a struct or a number."""

    name: str
    kind: str
    is_pointer: bool
    is_const: bool


@dataclass(frozen=True)
class Call:
    """A call of the header."""

    name: str
    result: str
    prototype: str
    arguments: tuple[Argument, ...]


def text() -> str:
    """The header without its comments."""
    return re.sub(r"/\*.*?\*/", "", header.text(), flags=re.S)


def structs() -> dict[str, Struct]:
    """The structs, by their names, each below those that it has."""
    return structs_of(text())


@cache
def structs_of(header_text: str) -> dict[str, Struct]:
    """The structs of a header's text."""
    found: dict[str, Struct] = {}
    sizes = {name: int(size) for name, size in SIZE.findall(header_text)}
    places = {(name, field): int(at) for name, field, at in PLACE.findall(header_text)}
    for name, body in STRUCT.findall(header_text):
        fields = []
        for kind, field, count in FIELD.findall(body):
            must((name, field) in places, f"c/sdm.h doesn't say where {field} stands in {name}")
            must(
                kind in {*NUMBERS, *found, HANDLE_PLACE, "uint8_t"},
                f"{kind} of {name} is a kind of field that isn't known",
            )
            fields.append(Field(field, kind, places[name, field], int(count or 0)))
        must(name in sizes and bool(fields), f"c/sdm.h doesn't say how large {name} is")
        found[name] = Struct(name, sizes[name], tuple(fields))
    must(
        HANDLE in found and {name for name, _ in places} == set(found),
        "c/sdm.h asserts places of other structs than it has",
    )
    return found


def argument(told: str) -> Argument:
    """An argument as a prototype writes it."""
    words = told.replace("*", " * ").replace("struct ", "").split()
    return Argument(
        words[-1], [each for each in words[:-1] if each not in ("const", "*")][0], "*" in words, "const" in words
    )


def calls() -> list[Call]:
    """The calls that the crate has, in their order."""
    return calls_of(text())


@cache
def calls_of(header_text: str) -> list[Call]:
    """The calls of a header's text."""
    found = []
    for result, name, listed in PROTOTYPE.findall(header_text):
        listed = " ".join(listed.split())
        arguments = () if listed == "void" else tuple(argument(each) for each in listed.split(", "))
        if name not in header.texts(header.text()):
            found.append(Call(name, result.strip(), f"{result}{name}({listed})", arguments))
    texts = header.texts(header.text())
    declared = [call.name for call in header.calls(header.text()) if call.name not in texts]
    must(
        [call.name for call in found] == declared, "the calls of c/sdm.h aren't read as scripts/c/header.py reads them"
    )
    return found


def names() -> list[str]:
    """The names of the calls that the crate has."""
    return [call.name for call in calls()]


def enums() -> Iterator[tuple[str, dict[str, int]]]:
    """The enums of the header with their members, without the SDM_ before these."""
    for name, body in ENUM.findall(text()):
        yield name, {member: int(number) for member, number in MEMBER.findall(body)}


def desk(call: Call) -> dict[str, int]:
    """Where the objects that a call's pointers lead to stand, one after the other; the room for all under an empty
    name. The bytes of a data part stand elsewhere."""
    places, at = {}, 0
    known = structs()
    for each in call.arguments:
        if each.is_pointer and each.kind != "uint8_t":
            places[each.name] = at
            size = known[each.kind].size if each.kind in known else NUMBERS[each.kind]
            at += -(-size // 16) * 16
    return {**places, "": at}


def desk_bytes() -> int:
    """The room that the largest call takes."""
    return max(desk(call)[""] for call in calls())
