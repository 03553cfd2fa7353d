"""What c/sdm.h declares. pycparser reads the layout of each struct, the codes and the arguments of each call, behind
the C compiler's preprocessor; the comments, which that drops, are those right above a call, and above a type."""
from __future__ import annotations

import re
import subprocess
from dataclasses import dataclass
from functools import cache

from pycparser import c_ast, c_parser

from scripts.pages.specs import ROOT

HEADER = ROOT / "c" / "sdm.h"
# Without what marks answers that must be looked at, and with headers of the library that declare types alone.
PREPROCESSED = [
    "cc",
    "-E",
    "-P",
    "-std=c99",
    "-U__GNUC__",
    "-nostdinc",
    "-I/usr/share/python3-pycparser/fake_libc_include",
]
CALL = re.compile(r"/\*((?:(?!\*/).)*)\*/\n(?:SDM_MUST_CHECK )?((?:const )?\w+ \*?(sdm_\w+)\([^;]*\);)", re.S)
TYPE = re.compile(r"^(?:/\*(?:(?!\*/).)*\*/\n)?(?:struct|enum) sdm\w* \{.*?\};$", re.M | re.S)


@dataclass(frozen=True)
class Call:
    """A call as the header declares it."""

    name: str
    prototype: str  # without what makes a compiler look at its answer
    comment: str  # one line
    must_be_checked: bool


@dataclass(frozen=True)
class Value:
    """A field or an argument: its name, its type or that of what it points to, how many there are in an array, and
    whether it points to what isn't changed."""

    name: str
    kind: str
    count: str = ""
    is_pointer: bool = False
    is_const: bool = False


def text() -> str:
    """The header."""
    return HEADER.read_text()


def joined(comment: str) -> str:
    """The text of a comment in one line, without what begins its lines."""
    return " ".join(line.strip().removeprefix("* ") for line in comment.strip().splitlines())


def calls(header: str) -> list[Call]:
    """The calls, in their order."""
    return [
        Call(found[3], found[2], joined(found[1]), f"SDM_MUST_CHECK {found[2]}" in header)
        for found in CALL.finditer(header)
    ]


def texts(header: str) -> set[str]:
    """The calls that tell a text: they are in C, and the crate has no code of theirs."""
    return {call.name for call in calls(header) if call.prototype.startswith("const char *")}


def opening(header: str) -> list[str]:
    """The paragraphs of the comment with which the header begins."""
    return [joined(part) for part in re.split(r"^ \*$", header[len("/*") : header.index("*/")], flags=re.M)]


def layout(header: str) -> int:
    """The number of the layout."""
    return int(re.findall(r"^#define SDM_LAYOUT (\d+)u$", header, re.M)[0])


def version(header: str) -> int:
    """The version, as a number."""
    return int(re.findall(r"^#define SDM_VERSION (\d+)u ", header, re.M)[0])


def types(header: str) -> list[str]:
    """The structs and the enums of the calls with their comments, as they stand."""
    return [found[0] for found in TYPE.finditer(header)]


@cache
def parsed(header: str) -> c_ast.FileAST:
    """The declarations of the header."""
    words = [*PREPROCESSED, "-x", "c", "-"]
    source = subprocess.run(words, input=header, capture_output=True, text=True, check=True).stdout
    return c_parser.CParser().parse(source, str(HEADER))


def declared(header: str, kind: type[c_ast.Node]) -> list[c_ast.Node]:
    """The types of the declarations that are of a kind: a struct, an enum, a function."""
    found = [each.type for each in parsed(header).ext if isinstance(each, c_ast.Decl) and isinstance(each.type, kind)]
    return [
        each for each in found if (type_name(each) if kind is c_ast.FuncDecl else each.name or "").startswith("sdm")
    ]


def type_name(function: c_ast.FuncDecl) -> str:
    """The name of a function."""
    inner = function.type
    while not isinstance(inner, c_ast.TypeDecl):
        inner = inner.type
    return str(inner.declname)


def value_of(name: str, node: c_ast.Node) -> Value:
    """A field or an argument of a type."""
    if isinstance(node, c_ast.ArrayDecl):
        return Value(name, value_of(name, node.type).kind, str(node.dim.value))
    if isinstance(node, c_ast.PtrDecl):
        return Value(name, value_of(name, node.type).kind, "", True, "const" in node.type.quals)
    inner = node.type
    return Value(name, inner.name if isinstance(inner, c_ast.Struct) else " ".join(inner.names))


def codes(header: str) -> dict[str, dict[str, int]]:
    """The numbers of each enum, by the names of both."""
    return {
        each.name: {one.name: int(one.value.value) for one in each.values.enumerators}
        for each in declared(header, c_ast.Enum)
    }


def statuses(header: str) -> dict[str, int]:
    """Each status, without the SDM_ before its name, with its number."""
    return {name.removeprefix("SDM_"): number for name, number in codes(header)["sdm_status"].items()}


def structs(header: str) -> dict[str, list[Value]]:
    """The fields of each struct."""
    return {
        each.name: [value_of(field.name, field.type) for field in each.decls] for each in declared(header, c_ast.Struct)
    }


def functions(header: str) -> dict[str, tuple[Value, list[Value]]]:
    """What each call answers, and its arguments."""
    found = {}
    for each in declared(header, c_ast.FuncDecl):
        given = [] if each.args is None else [value_of(one.name or "", one.type) for one in each.args.params]
        found[type_name(each)] = value_of("", each.type), [one for one in given if one.kind != "void"]
    return found
