"""Machine code for x86-64: the functions of an object with their instructions, and where each call and each jump
leads. pyelftools reads the object, and Capstone decodes it."""
from __future__ import annotations

import re
import subprocess
from collections.abc import Iterator
from dataclasses import dataclass, field
from pathlib import Path

from capstone import CsInsn
from elftools.elf.constants import SH_FLAGS
from elftools.elf.elffile import ELFFile
from elftools.elf.relocation import RelocationSection
from elftools.elf.sections import Section

from scripts.bounding.decoding import decoded, is_repeated, name_of, operands_of

BY_TABLE = {9, 41, 42}  # R_X86_64_GOTPCREL, R_X86_64_GOTPCRELX, R_X86_64_REX_GOTPCRELX
ADDRESS = re.compile(r"^([0-9a-f]+)(?: <.*>)?$")
CALLS = {"call", "callq"}
JUMPS = {"jmp", "jmpq"}
STACK = CALLS | {"ret", "retq", "push", "pushq", "pop", "popq", "leave", "leaveq"}
ENDS = {"ret", "retq", "ud2", "hlt", "int3"}
AFTER_OPERAND = 4  # the bytes from a relocated word of an instruction to its end


class Refused(Exception):
    """What stands in the way of a bound."""


@dataclass(frozen=True)
class Place:
    """A place in a section of an object."""

    section: str
    at: int


@dataclass(slots=True)
class Instruction:
    """An instruction: its address in its section, its name without prefixes, its operands, and where it leads."""

    at: int
    name: str
    operands: str
    is_repeated: bool = False  # it is a loop by itself
    symbol: str = ""  # that its relocation names, with the offset
    offset: int = 0
    is_by_table: bool = False  # by the table of global offsets, so it is direct
    target: int | None = None  # the address in its own function to which it jumps
    callee: str | None = None  # the function that it calls, or to which it jumps

    def is_call(self) -> bool:
        return self.name in CALLS

    def is_jump(self) -> bool:
        """Whether it jumps, always or under a condition."""
        return self.name.startswith(("j", "loop"))

    def is_condition(self) -> bool:
        return self.is_jump() and self.name not in JUMPS

    def is_padding(self) -> bool:
        return self.name.startswith("nop") or (self.name == "xchg" and self.operands == "%ax,%ax")

    def is_indirect(self) -> bool:
        """Whether it leads where a register or a word of memory says."""
        return self.operands.startswith("*") and not self.is_by_table

    def is_division(self) -> bool:
        return self.name.startswith(("div", "idiv"))

    def is_access(self) -> bool:
        """Whether it reads or writes memory, the stack too."""
        if self.name.startswith(("lea", "nop")) and self.name != "leave":
            return False
        return self.name in STACK or any(mark in self.operands for mark in ("(", "%fs:", "%gs:"))


@dataclass
class Function:
    """A function of an object, with its instructions in their order."""

    name: str
    begin: Place
    code: list[Instruction] = field(default_factory=list)

    def end(self) -> int:
        """The address past the start of its last instruction."""
        return self.code[-1].at + 1 if self.code else self.begin.at

    def has(self, place: Place) -> bool:
        return place.section == self.begin.section and self.begin.at <= place.at < self.end()


def printed(*words: str | Path) -> str:
    """What a command prints."""
    return subprocess.run(words, check=True, capture_output=True, text=True).stdout


def relocations(elf: ELFFile, section: Section) -> dict[int, tuple[str, int, bool]]:
    """The relocated words of a section, by their places: the symbol, or the section that it stands for, what is added
    to it, and whether it goes by the table of global offsets."""
    table, found = elf.get_section_by_name(f".rela{section.name}"), {}
    if not isinstance(table, RelocationSection):
        return {}
    symbols = elf.get_section(table["sh_link"])
    for each in table.iter_relocations():
        symbol = symbols.get_symbol(each["r_info_sym"])
        is_section = symbol["st_info"]["type"] == "STT_SECTION"
        name = elf.get_section(symbol["st_shndx"]).name if is_section else symbol.name
        found[each["r_offset"]] = name, each["r_addend"], each["r_info_type"] in BY_TABLE
    return found


def instruction(each: CsInsn, words: dict[int, tuple[str, int, bool]]) -> Instruction:
    """An instruction, with what its relocation says."""
    made = Instruction(each.address, name_of(each), operands_of(each), is_repeated(each))
    for at in range(each.address, each.address + each.size):
        if at in words:
            made.symbol, made.offset, made.is_by_table = words[at]
    return made


def starts_in(elf: ELFFile, number: int) -> dict[int, str]:
    """Where functions of a section begin, by the names of its symbols but the labels of the compiler. Of several names
    of one place that of a function counts, and then a global one."""
    table, found = elf.get_section_by_name(".symtab"), dict[int, tuple[bool, bool, str]]()
    for symbol in table.iter_symbols() if table is not None else ():
        kind, binding = symbol["st_info"]["type"], symbol["st_info"]["bind"]
        if symbol["st_shndx"] != number or kind in ("STT_SECTION", "STT_FILE") or symbol.name.startswith(".L"):
            continue
        at, rank = symbol["st_value"], (kind != "STT_FUNC", binding == "STB_LOCAL", symbol.name)
        found[at] = min(rank, found.get(at, rank))
    return {at: rank[2] for at, rank in sorted(found.items())}


def functions(path: Path) -> Iterator[Function]:
    """The functions of an object, whose jumps and calls lead nowhere yet. One whose bytes are no instructions ends
    there."""
    with path.open("rb") as file:
        elf = ELFFile(file)
        for number, section in enumerate(elf.iter_sections()):
            if not section["sh_flags"] & SH_FLAGS.SHF_EXECINSTR or not section.data_size:
                continue
            data, words, starts = section.data(), relocations(elf, section), starts_in(elf, number)
            for begin, end in zip(starts, [*list(starts)[1:], len(data)]):
                code = [instruction(each, words) for each in decoded(data[begin:end], begin)]
                yield Function(starts[begin], Place(section.name, begin), code)


def aim(function: Function, symbols: dict[str, Place], starts: dict[Place, str]) -> None:
    """Finds where each call and each jump of a function leads. `symbols` has the places of the object's symbols, and
    `starts` the functions that begin at a place."""
    for each in function.code:
        if not (each.is_call() or each.is_jump()) or each.is_indirect():
            continue
        place = place_of(each, function, symbols)
        if isinstance(place, str):
            each.callee = place
        elif each.is_jump() and function.has(place):
            each.target = place.at
        else:
            each.callee = starts.get(place, f"{place.section}+{place.at:#x}")


def place_of(each: Instruction, function: Function, symbols: dict[str, Place]) -> Place | str:
    """Where a direct call or jump leads: a place of the object, or a symbol from elsewhere."""
    if each.symbol:
        place, more = symbols.get(each.symbol), each.offset + AFTER_OPERAND
        if place is None or not place.section:
            return each.symbol if more == 0 else f"{each.symbol}{more:+#x}"
        return Place(place.section, place.at + more)
    found = ADDRESS.match(each.operands)
    if not found:
        raise Refused(f"{function.name} leads nowhere known at {each.at:#x}: {each.name} {each.operands}")
    return Place(function.begin.section, int(found[1], 16))
