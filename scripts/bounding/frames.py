"""How deep a function uses the stack: what it pushes and takes off the stack pointer, what an alignment of it may take,
and what is touched below it (the red zone). A depth is counted in bytes from the caller's frame down, with the return
address of the call. What moves the stack pointer by anything but a constant is refused."""
from __future__ import annotations

import re
from collections.abc import Sequence
from dataclasses import dataclass, field

from scripts.bounding.code import Function, Instruction, Refused

WORD = 8
ALL_BITS = 1 << 64
STACK_POINTER = {"%rsp", "%esp", "%sp", "%spl"}
FRAME_POINTER = {"%rbp", "%ebp", "%bp", "%bpl"}
IMMEDIATE = re.compile(r"^\$(-?)0x([0-9a-f]+),%rsp$")
FROM = re.compile(r"^(-?)0x([0-9a-f]+)\(%(rsp|rbp)\),%rsp$")
BELOW = {register: re.compile(rf"-0x([0-9a-f]+)\(%{register}[,)]") for register in ("rsp", "rbp")}


@dataclass(frozen=True)
class Depth:
    """How deep the stack pointer is, and how deep the frame pointer, where it points into the frame."""

    stack: int
    base: int | None = None


@dataclass
class Frame:
    """How deep a function uses the stack itself, and how deep it calls each other, at most."""

    deepest: int = 0
    calls: dict[str, int] = field(default_factory=dict)
    indirect: int | None = None  # the address of a call that leads where nothing says


def moved(each: Instruction, before: Depth) -> Depth | None:
    """The depth after an instruction; none where it sets the stack pointer in a way that isn't known."""
    name, operands = each.name, each.operands
    if name.startswith("push"):
        return Depth(before.stack + WORD, before.base)
    if name in ("pop", "popq"):
        return Depth(before.stack - WORD, None if operands == "%rbp" else before.base)
    if name.startswith("leave"):
        return None if before.base is None else Depth(before.base - WORD)
    if name.startswith("enter") or (name.startswith("xchg") and "%rsp" in operands):
        return None
    written = operands.rpartition(",")[2].strip()
    if reads_alone(name) or written not in FRAME_POINTER | STACK_POINTER:
        return before
    if written in FRAME_POINTER:
        return Depth(before.stack, before.stack if name.startswith("mov") and operands == "%rsp,%rbp" else None)
    return set_stack(each, before)


def reads_alone(name: str) -> bool:
    """Whether an instruction writes none of its operands."""
    return name.startswith(("cmp", "test", "call", "j", "bt")) and not name.startswith(("btc", "btr", "bts"))


def set_stack(each: Instruction, before: Depth) -> Depth | None:
    """The depth after an instruction that sets the stack pointer."""
    name, operands = each.name, each.operands
    if number := IMMEDIATE.match(operands):
        value = int(number[2], 16)
        value = -value if number[1] else value - ALL_BITS if value >= ALL_BITS // 2 else value
        if name.startswith("sub"):
            return Depth(before.stack + value, before.base)
        if name.startswith("add"):
            return Depth(before.stack - value, before.base)
        if name.startswith("and") and value < 0:
            return Depth(before.stack - value - WORD, before.base)
    if name.startswith("mov") and operands == "%rbp,%rsp" and before.base is not None:
        return Depth(before.base, before.base)
    if name.startswith("lea") and (place := FROM.match(operands)):
        value = int(place[2], 16) * (-1 if place[1] else 1)
        start = before.stack if place[3] == "rsp" else before.base
        return None if start is None else Depth(start - value, before.base)
    return None


def touched(each: Instruction, at: Depth) -> int:
    """How deep an instruction reads or writes below the stack pointer or the frame pointer."""
    deepest = at.stack
    for register, start in (("rsp", at.stack), ("rbp", at.base)):
        found = BELOW[register].search(each.operands)
        if found and start is not None:
            deepest = max(deepest, start + int(found[1], 16))
    return deepest


def leads_out(each: Instruction) -> bool:
    """Whether an instruction calls a function, or jumps to one."""
    return each.callee is not None or (each.is_call() and each.is_indirect())


def frame_of(function: Function, after: Sequence[frozenset[int]]) -> Frame:
    """The frame of a function, or a refusal."""
    frame, depths, rest = Frame(), {0: Depth(WORD)}, [0]
    while rest:
        k = rest.pop()
        each, here = function.code[k], depths[k]
        if leads_out(each):
            # the return address of a call counts as the callee's; a jump leaves it this frame's
            depth = here.stack if each.is_call() else here.stack - WORD
            if each.callee is None:
                frame.indirect = each.at
            else:
                frame.calls[each.callee] = max(frame.calls.get(each.callee, 0), depth)
        then = moved(each, here)
        if then is None:
            raise Refused(f"{function.name} sets the stack pointer by `{each.name} {each.operands}`, at {each.at:#x}")
        if each.name.startswith("ret") and then.stack != WORD:
            raise Refused(f"{function.name} returns at another depth than it began, at {each.at:#x}")
        frame.deepest = max(frame.deepest, touched(each, here), then.stack)
        for to in after[k]:
            if to not in depths:
                depths[to] = then
                rest.append(to)
            elif depths[to].stack != then.stack:
                raise Refused(f"{function.name} comes to {function.code[to].at:#x} at two depths")
            elif depths[to].base not in (None, then.base):
                depths[to] = Depth(then.stack)  # nothing rests on the frame pointer from here on
                rest.append(to)
    return frame
