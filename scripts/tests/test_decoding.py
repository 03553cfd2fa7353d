"""Machine code is decoded as encodings of the processor's manual say, and as objdump, a decoder of its own, does."""
from __future__ import annotations

import re
import subprocess
from pathlib import Path

import pytest

from scripts.bounding.code import functions
from scripts.bounding.decoding import decoded, is_repeated, name_of, operands_of

SOURCES = Path(__file__).parent / "bounded"
LINE = re.compile(r"^\s*([0-9a-f]+):\t(?:(?:rep|repz|repnz|lock|cs|data16|notrack) +)*(\S+)(?: +(.*?))?\s*(?:#.*)?$")
ENCODED = [  # by hand from the manual's tables: opcode, ModRM, SIB, displacement, immediate
    ("48 89 c3", "mov", "%rax,%rbx"),
    ("c7 04 24 05 00 00 00", "movl", "$0x5,(%rsp)"),
    ("48 83 ec 18", "sub", "$0x18,%rsp"),
    ("48 83 e4 f0", "and", "$0xfffffffffffffff0,%rsp"),
    ("48 8d 44 24 f8", "lea", "-0x8(%rsp),%rax"),
    ("48 63 04 8a", "movslq", "(%rdx,%rcx,4),%rax"),
    ("0f b6 07", "movzbl", "(%rdi),%eax"),
    ("d1 e8", "shr", "%eax"),
    ("48 d3 2f", "shrq", "%cl,(%rdi)"),
    ("48 f7 f9", "idiv", "%rcx"),
    ("f7 37", "divl", "(%rdi)"),
    ("48 99", "cqto", ""),
    ("64 48 8b 04 25 28 00 00 00", "mov", "%fs:0x28,%rax"),
    ("3e ff e0", "jmp", "*%rax"),
    ("ff 57 08", "call", "*0x8(%rdi)"),
    ("48 e8 00 00 00 00", "call", "6"),  # with a prefix that says nothing
    ("c9", "leave", ""),
    ("66 90", "xchg", "%ax,%ax"),
    ("0f 1f 40 00", "nopl", "0x0(%rax)"),
]


@pytest.mark.parametrize(("encoding", "name", "operands"), ENCODED)
def test_an_encoding_is_decoded(encoding: str, name: str, operands: str) -> None:
    (each,) = decoded(bytes.fromhex(encoding), 0)
    assert (name_of(each), operands_of(each)) == (name, operands)


@pytest.mark.parametrize(
    ("encoding", "is_loop"), [("f3 48 a5", True), ("f3 aa", True), ("48 a5", False), ("f3 c3", False)]
)
def test_a_repeated_instruction_is_a_loop(encoding: str, is_loop: bool) -> None:
    (each,) = decoded(bytes.fromhex(encoding), 0)
    assert is_repeated(each) == is_loop


def test_bytes_that_are_no_instruction_end_the_code() -> None:
    assert [name_of(each) for each in decoded(bytes.fromhex("90 06 90"), 0)] == ["nop"]


@pytest.mark.parametrize("source", ["calls.c", "loops.s", "paint.c"])
def test_objdump_names_the_same_instructions(source: str, tmp_path: Path) -> None:
    made = tmp_path / "made.o"
    subprocess.run(["gcc", "-O2", "-c", "-o", made, SOURCES / source], check=True)
    told = subprocess.run(
        ["objdump", "--disassemble", "--no-show-raw-insn", "--wide", made], check=True, capture_output=True, text=True
    ).stdout
    due = [(int(found[1], 16), found[2]) for line in told.splitlines() if (found := LINE.match(line))]
    code = sorted((each.at, each.name) for function in functions(made) for each in function.code)
    assert len(code) > 20
    assert code == sorted(due)
