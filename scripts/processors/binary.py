"""What a WebAssembly module imports and exports, by its bytes."""
from __future__ import annotations

from collections.abc import Iterator

from scripts.processors.tools import must

MAGIC = b"\0asm\x01\0\0\0"
IMPORTS, EXPORTS = 2, 7  # the numbers of the sections
KINDS = ("function", "table", "memory", "global")


def number(data: bytes, at: int) -> tuple[int, int]:
    """The number that stands at a place, in groups of seven bits, and the place behind it."""
    value = shift = 0
    while True:
        byte, at = data[at], at + 1
        value |= (byte & 0x7F) << shift
        shift += 7
        if byte < 0x80:
            return value, at


def sections(module: bytes) -> Iterator[tuple[int, bytes]]:
    """The sections of a module, by their numbers."""
    must(module.startswith(MAGIC), "that is no WebAssembly module")
    at = len(MAGIC)
    while at < len(module):
        size, begin = number(module, at + 1)
        yield module[at], module[begin : begin + size]
        at = begin + size


def imports(module: bytes) -> int:
    """How many things a module imports."""
    return sum(number(body, 0)[0] for kind, body in sections(module) if kind == IMPORTS)


def exports(module: bytes) -> dict[str, str]:
    """What a module exports, with its kind."""
    found: dict[str, str] = {}
    for kind, body in sections(module):
        if kind != EXPORTS:
            continue
        count, at = number(body, 0)
        for _ in range(count):
            size, at = number(body, at)
            name, at = body[at : at + size].decode(), at + size
            found[name] = KINDS[body[at]]
            _, at = number(body, at + 1)
    return found
