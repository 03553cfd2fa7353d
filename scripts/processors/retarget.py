"""The LLVM module that the prover wrote for 64-bit ARM, as text, for another target: its name and its layout of data
change, the words for the old processor go, and two of its instructions are written in plain LLVM. Nothing else is
touched. That the rest means the same is believed: pointers have 64 bits, bytes are in the same order, and sizes and
alignments are those of the old layout."""
from __future__ import annotations

import re
from collections.abc import Collection, Sequence

from scripts.processors.targets import PROVED, Machine
from scripts.processors.tools import must
from sdm.laboratory.program import Fault

TRIPLE = f'target triple = "{PROVED.triple}"'
LAYOUT = f'target datalayout = "{PROVED.layout}"'
OF_THE_PROCESSOR = re.compile(
    r' "(?:target-cpu|target-features|tune-cpu|frame-pointer|probe-stack|stack-probe-size)"="[^"]*"'
)
DEFINED = re.compile(r"^define (?!internal |private )[^\n]*?@([\w.]+)\(", re.M)
DECLARED = re.compile(r"^declare [^\n]*?@([\w.]+)\(", re.M)
FOREIGN = re.compile(r"aarch64|neon", re.I)
# What the module may ask of others: the heap of c/heap.h, and what a C compiler brings.
ASKED = {"rattle_alloc", "rattle_realloc", "rattle_dealloc", "memcpy", "memmove", "memset", "memcmp"}


def sums_of_neighbours() -> str:
    """The sums of two vectors' neighbours: the even bytes plus the odd ones."""

    def every_second(first: int) -> str:
        return ", ".join(f"i32 {at}" for at in range(first, 32, 2))

    return f"""define internal <16 x i8> @addp(<16 x i8> %a, <16 x i8> %b) {{
  %even = shufflevector <16 x i8> %a, <16 x i8> %b, <16 x i32> <{every_second(0)}>
  %odd = shufflevector <16 x i8> %a, <16 x i8> %b, <16 x i32> <{every_second(1)}>
  %sum = add <16 x i8> %even, %odd
  ret <16 x i8> %sum
}}"""


def bytes_of_a_table() -> str:
    """The bytes of a table at 16 places; a place of 16 or more gives 0."""
    steps = "".join(
        f"""  %place{at} = extractelement <16 x i8> %places, i32 {at}
  %is_inside{at} = icmp ult i8 %place{at}, 16
  %inside{at} = and i8 %place{at}, 15
  %byte{at} = extractelement <16 x i8> %table, i8 %inside{at}
  %taken{at} = select i1 %is_inside{at}, i8 %byte{at}, i8 0
  %found{at} = insertelement <16 x i8> {f"%found{at - 1}" if at else "zeroinitializer"}, i8 %taken{at}, i32 {at}
"""
        for at in range(16)
    )
    return (
        f"define internal <16 x i8> @tbl1(<16 x i8> %table, <16 x i8> %places) {{\n{steps}  ret <16 x i8> %found15\n}}"
    )


# The instructions of the old processor, of which each takes two vectors of 16 bytes and gives one.
INSTRUCTIONS = {
    "llvm.aarch64.neon.addp.v16i8": ("addp", sums_of_neighbours()),
    "llvm.aarch64.neon.tbl1.v16i8": ("tbl1", bytes_of_a_table()),
}


def without_instructions(text: str) -> str:
    """The module with plain functions for the old processor's instructions."""
    for name, (plain, body) in INSTRUCTIONS.items():
        declared = re.compile(rf"^declare <16 x i8> @{re.escape(name)}\(<16 x i8>, <16 x i8>\)[^\n]*$", re.M)
        text = declared.sub(lambda _: body, text)
        text = text.replace(f"call <16 x i8> @{name}(", f"call <16 x i8> @{plain}(")
    return text


def without_comments(text: str) -> str:
    """The module's lines without what stands behind a semicolon: names of the old processor may stand there."""
    return re.sub(r"^;[^\n]*$", "", text, flags=re.M)


def must_have(text: str, calls: Collection[str]) -> None:
    """A fault where the module doesn't define exactly the calls, or asks for more than a heap."""
    defined = DEFINED.findall(text)
    must(
        sorted(defined) == sorted(calls), f"the module defines {' '.join(sorted(defined))}, and not the calls of sdm.h"
    )
    asked = {name for name in DECLARED.findall(text) if not name.startswith("llvm.")}
    must(asked <= ASKED, f"the module asks for {' '.join(sorted(asked - ASKED))}")


def retargeted(text: str, triple: str, layout: str, calls: Sequence[str]) -> str:
    """The module for another target."""
    must_have(text, calls)
    for line, to in ((TRIPLE, f'target triple = "{triple}"'), (LAYOUT, f'target datalayout = "{layout}"')):
        must(text.count(line) == 1, f"the module hasn't the one line {line}")
        text = text.replace(line, to)
    text = without_comments(without_instructions(OF_THE_PROCESSOR.sub("", text)))
    found = FOREIGN.search(text)
    if found:
        line = text[text.rfind("\n", 0, found.start()) + 1 :].partition("\n")[0]
        raise Fault(f"the module has something of the old processor: {line[:120]}")
    return text


def exporting(text: str, calls: Sequence[str]) -> str:
    """A module for WebAssembly that exports the calls under their names."""
    for call in calls:
        line = re.compile(rf"^(define [^\n]*?@{call}\([^\n]*) (#\d+ \{{)$", re.M)
        text, count = line.subn(rf'\1 "wasm-export-name"="{call}" \2', text)
        must(count == 1, f"the module hasn't the one line that defines {call}")
    return text


def with_wide_results(text: str, machine: Machine, calls: Sequence[str]) -> str:
    """A module whose calls extend their results of 32 bits, where the machine's callers count on it."""
    if not machine.narrow_results:
        return text
    for call in calls:
        line = re.compile(rf"^(define [^\n]*?)i32 (@{call}\()", re.M)
        text, count = line.subn(rf"\1{machine.narrow_results} i32 \2", text)
        is_void = re.search(rf"^define [^\n]*?void @{call}\(", text, re.M)
        must(count == 1 or bool(is_void), f"the module hasn't the one line that defines {call}")
    return text
