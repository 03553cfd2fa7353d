"""calls.c: the calls of c/sdm.h over the module as C. Each struct is copied to the module's memory field by field, and
back after the call, so that the host's own order of bytes and its sizes don't matter. It is generated of the header, so
that no place is written twice."""
from __future__ import annotations

from scripts.processors.layout import HANDLE, NUMBERS, Argument, Call, Field, Struct, calls, desk, desk_bytes, structs
from scripts.processors.tools import must

HEAD = """/* Generated from c/sdm.h by scripts/processors/calls.py: the calls over the module. What a pointer leads
 * to is copied to the module's memory, and what isn't const is copied back, whatever the call answers: so it changes
 * what it changes where the structs lie in one memory with the code. For one thread. */
#include "instance.h"
#include "sdm.h"

"""
OF_BITS = {4: "32", 8: "64"}


def place(at: int) -> str:
    """A place in a struct as an expression."""
    return f"at + {at}" if at else "at"


def put(field: Field) -> str:
    """A line that copies a field to the module."""
    if field.count:
        return f"    memcpy(sdm_module_at({place(field.at)}, {field.count}), from->{field.name}, {field.count});\n"
    if field.kind in NUMBERS:
        bits = OF_BITS[NUMBERS[field.kind]]
        return f"    put{bits}(sdm_module_at({place(field.at)}, {int(bits) // 8}), (u{bits})from->{field.name});\n"
    if field.kind in structs():
        return f"    put_{field.kind}({place(field.at)}, &from->{field.name});\n"
    return f"    put64(sdm_module_at({place(field.at)}, 8), (u64)(uintptr_t)from->{field.name});\n"


def get(field: Field) -> str:
    """A line that copies a field back."""
    if field.count:
        return f"    memcpy(to->{field.name}, sdm_module_at({place(field.at)}, {field.count}), {field.count});\n"
    if field.kind in NUMBERS:
        bits = OF_BITS[NUMBERS[field.kind]]
        number = f"({field.kind})get{bits}(sdm_module_at({place(field.at)}, {int(bits) // 8}))"
        return f"    to->{field.name} = {number};\n"
    if field.kind in structs():
        return f"    get_{field.kind}({place(field.at)}, &to->{field.name});\n"
    return f"    to->{field.name} = ({field.kind})(uintptr_t)get64(sdm_module_at({place(field.at)}, 8));\n"


def used(name: str, is_const: bool) -> bool:
    """Whether a call copies such a struct in, or back; or a struct that has it is copied so."""
    named = {each.kind for call in calls() for each in call.arguments if is_const or not each.is_const}
    within = {struct.name for struct in structs().values() if any(field.kind == name for field in struct.fields)}
    return name in named or any(used(each, is_const) for each in within)


def copies(struct: Struct) -> str:
    """The functions that copy a struct to the module and back."""
    found = ""
    if used(struct.name, True):
        lines = "".join(map(put, struct.fields))
        found += f"static void put_{struct.name}(u64 at, const struct {struct.name} *from) {{\n{lines}}}\n\n"
    if used(struct.name, False):
        lines = "".join(map(get, struct.fields))
        found += f"static void get_{struct.name}(u64 at, struct {struct.name} *to) {{\n{lines}}}\n\n"
    return found


def spot(each: Argument, places: dict[str, int]) -> str:
    """The place on the desk of what a pointer leads to."""
    at = places[each.name]
    return f"sdm_module_desk + {at}" if at else "sdm_module_desk"


def copied_in(each: Argument, places: dict[str, int]) -> str:
    """The line that copies what a pointer leads to into the module."""
    if each.kind in NUMBERS:
        bits = OF_BITS[NUMBERS[each.kind]]
        return f"    put{bits}(sdm_module_at({spot(each, places)}, {int(bits) // 8}), (u{bits})*{each.name});\n"
    return f"    put_{each.kind}({spot(each, places)}, {each.name});\n"


def copied_back(each: Argument, places: dict[str, int]) -> str:
    """The line that copies back what a pointer leads to."""
    if each.is_const:
        return ""
    if each.kind in NUMBERS:
        bits = OF_BITS[NUMBERS[each.kind]]
        return f"    *{each.name} = ({each.kind})get{bits}(sdm_module_at({spot(each, places)}, {int(bits) // 8}));\n"
    return f"    get_{each.kind}({spot(each, places)}, {each.name});\n"


def word(each: Argument, places: dict[str, int]) -> str:
    """An argument as the module takes it."""
    if each.name in places:
        return spot(each, places)
    if each.is_pointer:
        return f"{each.name}_at"
    return f"({'u64' if each.kind == 'size_t' else 'u32'}){each.name}"


def failed(call: Call) -> str:
    """What a call answers where there is no instance, as memory was refused."""
    if call.result == "void":
        return ""
    is_of_handle = bool(call.arguments) and call.arguments[0].kind == HANDLE
    return " SDM_NO_MEMORY" if call.name == "sdm_open" else " SDM_CLOSED" if is_of_handle else " 0"


def body(call: Call) -> str:
    """What a call does."""
    places, is_void = desk(call), call.result == "void"
    on_desk = [each for each in call.arguments if each.name in places]
    data = [each for each in call.arguments if each.is_pointer and each.kind == "uint8_t"]
    must(len(data) <= 1 and all(each.is_const for each in data), f"{call.name} takes bytes in a way that isn't known")
    lines = [f"    if (!sdm_module_begin({desk_bytes()}))\n        return{failed(call)};\n"]
    for each in data:
        count = f"{each.name}_bytes"
        lines.append(f"    u64 {each.name}_at = Z_sdmZ_block_take(&sdm_module, {count} != 0 ? {count} : 1);\n")
        lines.append(f"    if ({each.name}_at == 0)\n        return SDM_NO_MEMORY;\n")
        lines.append(f"    memcpy(sdm_module_at({each.name}_at, {count}), {each.name}, {count});\n")
    lines += [copied_in(each, places) for each in on_desk]
    words = "".join(f", {word(each, places)}" for each in call.arguments)
    answer = "" if is_void else f"{call.result} answer = "
    lines.append(f"    {answer}Z_sdmZ_{call.name}(&sdm_module{words});\n")
    lines += [f"    Z_sdmZ_block_free(&sdm_module, {each.name}_at);\n" for each in data]
    lines += [copied_back(each, places) for each in on_desk]
    return "".join(lines) + ("" if is_void else "    return answer;\n")


def source() -> str:
    """The text of calls.c."""
    parts = [HEAD, *map(copies, structs().values())]
    parts += [f"{call.prototype} {{\n{body(call)}}}\n\n" for call in calls()]
    must(HANDLE in structs(), "c/sdm.h has no handle")
    return "".join(parts).rstrip("\n") + "\n"
