"""Machine code of x86-64 as Capstone decodes it: each instruction with the name and the operands that assembly in
AT&T's syntax has."""
from __future__ import annotations

from collections.abc import Iterator

from capstone import CS_ARCH_X86, CS_MODE_64, Cs, CsInsn, x86

SUFFIXES = {1: "b", 2: "w", 4: "l", 8: "q"}  # of a size in bytes
WIDENED = {"movsx": "movs", "movsxd": "movs", "movzx": "movz"}  # from one size to another
NAMES = {"cdqe": "cltq", "cwde": "cwtl", "cbw": "cbtw", "cqo": "cqto", "cdq": "cltd", "cwd": "cwtd"}
WITHOUT_SUFFIX = ("call", "j", "loop", "push", "pop", "ret", "lea", "set", "prefetch")
BY_ONE = (0xD0, 0xD1)  # shifts by one, which name no number
REPEATED = ("rep ", "repe ", "repne ", "repz ", "repnz ")
IN_STRINGS = ("movs", "stos", "lods", "cmps", "scas")
DECODER = Cs(CS_ARCH_X86, CS_MODE_64)
DECODER.detail = True


def decoded(data: bytes, begin: int) -> Iterator[CsInsn]:
    """The instructions of bytes that begin at an address, up to the first that are none."""
    yield from DECODER.disasm(data, begin)


def is_repeated(each: CsInsn) -> bool:
    """Whether an instruction is a loop by itself."""
    name: str = each.mnemonic
    return name.startswith(REPEATED) and name.rpartition(" ")[2].startswith(IN_STRINGS)


def name_of(each: CsInsn) -> str:
    """The name without prefixes, and with a suffix where no register says the size."""
    name = str(each.mnemonic).rpartition(" ")[2]
    given: list[x86.X86Op] = each.operands
    if name in WIDENED:
        return WIDENED[name] + SUFFIXES[given[1].size] + SUFFIXES[given[0].size]
    sized = [one for one in given if one.type == x86.X86_OP_MEM]
    if name == "nop":
        return f"nop{SUFFIXES[given[0].size]}" if given else "nop" if each.size == 1 else "xchg"
    registers = [one for one in written(each) if one.type == x86.X86_OP_REG]
    if name in ("shl", "shr", "sar", "rol", "ror", "rcl", "rcr"):  # whose count is a register of its own size
        registers = [one for one in given[:1] if one.type == x86.X86_OP_REG]
    if not sized or registers or name.startswith(WITHOUT_SUFFIX):
        return NAMES.get(name, name)
    return name + SUFFIXES.get(sized[0].size, "")


def written(each: CsInsn) -> list[x86.X86Op]:
    """The operands that assembly names."""
    given: list[x86.X86Op] = each.operands
    is_by_one = each.opcode[0] in BY_ONE and len(given) == 2 and given[1].type == x86.X86_OP_IMM
    return given[:1] if is_by_one else given


def operands_of(each: CsInsn) -> str:
    """The operands, the one that is written last. Where a call or a jump leads is a number alone."""
    if not each.operands and name_of(each) == "xchg":  # which does nothing, in two bytes
        return "%ax,%ax"
    is_lead = name_of(each).startswith(("call", "j", "loop"))
    texts = [operand(each, one) for one in reversed(written(each))]
    if is_lead:
        return "".join(f"*{text}" if not text.startswith("$") else text.removeprefix("$0x") for text in texts)
    return ",".join(texts)


def operand(each: CsInsn, one: x86.X86Op) -> str:
    """One operand."""
    if one.type == x86.X86_OP_REG:
        return f"%{each.reg_name(one.reg)}"
    if one.type == x86.X86_OP_IMM:
        return f"${one.imm & (1 << 8 * one.size) - 1:#x}"
    place = one.mem
    segment = f"%{each.reg_name(place.segment)}:" if place.segment else ""
    number = f"{place.disp:#x}" if place.disp or each.disp_size or not place.base else ""
    base = f"%{each.reg_name(place.base)}" if place.base else ""
    index = f",%{each.reg_name(place.index)},{place.scale}" if place.index else ""
    return f"{segment}{number}({base}{index})" if base or index else f"{segment}{number}"
