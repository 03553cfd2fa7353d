"""Objects, and the archives of them: their symbols, and the tables by which a function jumps."""
from __future__ import annotations

from collections.abc import Callable, Iterator
from contextlib import contextmanager
from dataclasses import dataclass
from pathlib import Path
from tempfile import TemporaryDirectory

from elftools.elf.elffile import ELFFile
from elftools.elf.enums import ENUM_RELOC_TYPE_x64
from elftools.elf.relocation import RelocationSection

from scripts.bounding.code import AFTER_OPERAND, Function, Instruction, Place, Refused, aim, functions, printed

ARCHIVE = b"!<arch>\n"
R_X86_64_64 = ENUM_RELOC_TYPE_x64["R_X86_64_64"]  # the whole address
CONSTANTS = (".rodata", ".data.rel.ro")
DISTANCE = 4  # the bytes of a word of a table that holds distances


@dataclass(frozen=True)
class TableEntry:
    """A word of the constants that holds a place: by itself, or as the distance from where its table begins."""

    word: Place
    is_distance: bool
    place: Place  # for a distance that from the word itself


class Object:
    """An object file."""

    def __init__(self, path: Path) -> None:
        self.symbols = symbols(path)
        self.entries = {entry.word: entry for entry in entries(path)}
        self.functions = [each for each in functions(path) if each.code]
        starts = {each.begin: each.name for each in reversed(self.functions)}
        for each in self.functions:
            aim(each, self.symbols, starts)
        self.bases = {base for each in self.functions for base in self.named_by(each)}

    def named_by(self, function: Function) -> set[Place]:
        """The places in the constants that a function names."""
        return {base for each in function.code if (base := self.base_of(each)) is not None}

    def base_of(self, each: Instruction) -> Place | None:
        """The place in the constants that an instruction names."""
        place = self.symbols.get(each.symbol)
        if place is None or not place.section.startswith(CONSTANTS):
            return None
        return Place(place.section, place.at + each.offset + AFTER_OPERAND)

    def targets(self, function: Function) -> dict[int, set[int]]:
        """Where each indirect jump of a function may lead, by its table. Where it isn't plain by which table one jumps,
        or a table is none of these, each may lead wherever a word of the constants leads in the function."""
        jumps = [k for k, each in enumerate(function.code) if each.is_jump() and each.is_indirect()]
        words = {base: self.table(function, base) for base in self.named_by(function)}
        everywhere = {target for table in words.values() for target in table.values()} | self.absolute(function)
        ends = {each.target for each in function.code} | everywhere
        bases = {function.code[k].at: base_before(function, k, ends, self.base_of) for k in jumps}
        covered = {word for base in bases.values() if base for word in words.get(base, {})}
        if None in bases.values() or covered != {word for table in words.values() for word in table}:
            return dict.fromkeys(bases, everywhere)
        return {at: set(words[base].values()) for at, base in bases.items() if base}

    def table(self, function: Function, base: Place) -> dict[Place, int]:
        """The words of a table of distances that begins at a place, each with where it leads: up to the first that
        leads elsewhere, or at which another table begins."""
        found, word = {}, base
        while (entry := self.entries.get(word)) and entry.is_distance and (word == base or word not in self.bases):
            place = Place(entry.place.section, entry.place.at - (word.at - base.at))
            if not function.has(place):
                break
            found[word] = place.at
            word = Place(base.section, word.at + DISTANCE)
        return found

    def absolute(self, function: Function) -> set[int]:
        """Where words of the constants lead that hold a place in a function by itself."""
        places = [entry.place for entry in self.entries.values() if not entry.is_distance]
        return {place.at for place in places if function.has(place)}


def base_before(
    function: Function, jump: int, ends: set[int | None], base_of: Callable[[Instruction], Place | None]
) -> Place | None:
    """The table by which a jump goes, where it is plain: its register is the sum of a table's word and of where that
    begins, and the instructions that say so follow one another, with no way into them from elsewhere."""
    wanted = function.code[jump].operands.removeprefix("*")
    for k in range(jump - 1, -1, -1):
        each = function.code[k]
        if function.code[k + 1].at in ends or each.is_jump() or each.is_call():
            return None
        written = each.operands.rpartition(",")[2]
        if written != wanted:
            continue
        if each.name == "lea":
            return base_of(each)
        if each.name != "add" or not each.operands.startswith("%"):
            return None
        wanted = each.operands.partition(",")[0]
    return None


def section_names(elf: ELFFile) -> list[str]:
    """The names of an object's sections, by their numbers. Two sections of code with one name are refused."""
    names = [section.name for section in elf.iter_sections()]
    for name in names:
        if name.startswith(".text") and names.count(name) > 1:
            raise Refused(f"two sections of {Path(elf.stream.name).name} are named {name}")
    return names


def places_of(elf: ELFFile) -> list[tuple[str, Place]]:
    """The name and the place of each symbol, by its number: a section's symbol by the name of the section; without a
    section for what is elsewhere."""
    sections, table, found = section_names(elf), elf.get_section_by_name(".symtab"), []
    for symbol in table.iter_symbols() if table is not None else ():
        number = symbol["st_shndx"]
        section = sections[number] if isinstance(number, int) else ""
        name = section if symbol["st_info"]["type"] == "STT_SECTION" else symbol.name
        found.append((name, Place(section, symbol["st_value"])))
    return found


def symbols(path: Path) -> dict[str, Place]:
    """The place of each symbol by its name, and of each section by its own."""
    with path.open("rb") as file:
        return dict(places_of(ELFFile(file)))


def entries(path: Path) -> Iterator[TableEntry]:
    """The words of the constants that hold places of the same object."""
    with path.open("rb") as file:
        elf = ELFFile(file)
        places = places_of(elf)
        for section in elf.iter_sections():
            name = section.name.removeprefix(".rela")
            if not isinstance(section, RelocationSection) or not name.startswith(CONSTANTS):
                continue
            for each in section.iter_relocations():
                to, is_word = places[each["r_info_sym"]][1], each["r_info_type"] == R_X86_64_64
                if to.section:
                    at = Place(to.section, to.at + each["r_addend"])
                    yield TableEntry(Place(name, each["r_offset"]), not is_word, at)


@contextmanager
def objects_of(path: Path, *members: str) -> Iterator[list[Path]]:
    """The objects of an archive, all or some, or the object itself."""
    if not path.is_file():
        raise Refused(f"there is no file {path}")
    with path.open("rb") as file:
        is_archive = file.read(len(ARCHIVE)) == ARCHIVE
    if not is_archive:
        yield [path]
        return
    names = list(members) or printed("ar", "t", path).split()
    if len(set(names)) < len(names):
        raise Refused(f"two objects of {path} have one name")
    with TemporaryDirectory() as folder:
        printed("ar", "x", "--output", folder, path.resolve(), *names)
        yield [Path(folder) / name for name in names]


def defining(path: Path, symbol: str) -> str:
    """The object of an archive that has a function."""
    for line in printed("nm", "--print-file-name", "--defined-only", path).splitlines():
        before, _, name = line.rpartition(" ")
        if name == symbol:
            return before.split(":")[1]
    raise Refused(f"{path} has no {symbol}")
