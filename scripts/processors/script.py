"""structs.mjs: how JavaScript reads and writes the structs of c/sdm.h, and what its calls take. It is generated of the
header, and of the Python package, whose names it has; so no place and no number is written twice."""
from __future__ import annotations

import json
from collections.abc import Mapping
from dataclasses import MISSING, fields
from enum import Enum

from scripts.c import header
from scripts.processors.layout import HANDLE, NUMBERS, Call, Field, Struct, calls, desk, desk_bytes, enums, structs
from scripts.processors.tools import must
from sdm import records, rows
from sdm_evidence.model.records import EST, EVENTS

HEAD = """// Generated from c/sdm.h and the Python package by scripts/processors/script.py: the structs as
// they lie in the module's memory, the numbers of statuses and codes, and what the calls and the records take.

"""
WHOLE = """/** A whole number of 64 bits; those of the library are all exact. */
function whole(view, at) {
  const number = Number(view.getBigInt64(at, true));
  if (!Number.isSafeInteger(number)) throw new RangeError("a number of the library isn't exact");
  return number;
}

"""
READS = {"uint32_t": "view.getUint32({}, true)", "int32_t": "view.getInt32({}, true)", "int64_t": "whole(view, {})"}
WRITES = {"uint32_t": "view.setUint32({}, {}, true)", "int32_t": "view.setInt32({}, {}, true)"}
# The enums of the header, as the Python package names them.
ENUMS: dict[str, type[Enum]] = {
    "sdm_status": rows.Status,
    "sdm_field": rows.Field,
    "sdm_state": rows.State,
    "sdm_supervision": rows.Supervision,
    "sdm_target": rows.Target,
    "sdm_rule": rows.Rule,
    "sdm_standing": rows.Standing,
}
# The call that takes each record.
RECORDS: dict[type[records.Record], str] = {
    records.Reading: "sdm_cycle",
    records.End: "sdm_end",
    records.EndCalculated: "sdm_end_calculated",
    records.Limit: "sdm_limit",
    records.Restriction: "sdm_restrict",
    records.Revocation: "sdm_revoke",
}


def place(at: int) -> str:
    """A place of a struct as an expression."""
    return f"at + {at}" if at else "at"


def read(field: Field) -> str:
    """An expression for a field."""
    if field.count:
        return f"new Uint8Array(view.buffer, {place(field.at)}, {field.count}).slice()"
    return READS.get(field.kind, f"read.{field.kind}(view, {{}})").format(place(field.at))


def reader(struct: Struct) -> str:
    """A function that reads a struct."""
    told = "".join(f"    {field.name}: {read(field)},\n" for field in struct.fields)
    return f"  {struct.name}: (view, at) => ({{\n{told}  }}),\n"


def writer(struct: Struct) -> str:
    """A function that writes a struct."""
    told = [WRITES[field.kind].format(place(field.at), f"value.{field.name}") for field in struct.fields]
    lines = "".join(f"    {line};\n" for line in told)
    return f"  {struct.name}: (view, at, value) => {{\n{lines}  }},\n"


def is_written(struct: Struct) -> bool:
    """Whether a call takes such a struct from the host."""
    return any(each.kind == struct.name and each.is_const for call in calls() for each in call.arguments)


def enum(name: str, members: Mapping[str, int]) -> str:
    """The numbers of an enum."""
    kind = ENUMS[name]
    numbers = {member: number for number, member in enumerate(kind.__members__)}
    same = sorted(members.values()) == list(numbers.values())
    must(same, f"python/sdm/rows.py has other numbers than {name} of c/sdm.h")
    told = "".join(f"  {each}: {number},\n" for each, number in numbers.items())
    return f"export const {kind.__name__} = Object.freeze({{\n{told}}});\n\n"


def arguments(call: Call) -> str:
    """What a call takes: each argument's name and kind, and where it stands on the desk."""
    places, told = desk(call), []
    for each in call.arguments:
        kind = each.kind if each.is_pointer or each.kind not in NUMBERS else "number"
        at = f", at: {places[each.name]}" if each.name in places else ""
        at += ", isGiven: true" if at and each.is_const else ""
        told.append(f'{{ name: "{each.name}", kind: "{kind}"{at} }}')
    return f"  {call.name}: [{', '.join(told)}],\n"


def types(name: str) -> dict[str, str]:
    """The types of C of what a call takes, by the names of its numbers and of the fields of what it reads."""
    call, known = next(each for each in calls() if each.name == name), structs()
    read_by = [known[each.kind] for each in call.arguments if each.is_const and each.kind in known]
    fields_read = {field.name: field.kind for struct in read_by for field in struct.fields}
    return fields_read | {each.name: each.kind for each in call.arguments if not each.is_pointer}


def form(kind: type[records.Record]) -> str:
    """The columns of a record: names, types, what counts where one is absent, and ranges as the program's."""
    ranges, known = EVENTS[kind.kind.encode()][1:], types(RECORDS[kind])
    told = []
    for column, ends in zip(fields(kind), ranges, strict=True):
        least, most = (json.dumps(end if end != EST else "est_mm") for end in ends)
        absent = "" if column.default is MISSING else f", absent: {int(column.default)}"
        kind_of_c = known[column.name]
        told.append(f'{{ name: "{column.name}", kind: "{kind_of_c}", least: {least}, most: {most}{absent} }}')
    return f"  {kind.kind}: {{ fields: [\n" + "".join(f"    {line},\n" for line in told) + "  ] },\n"


def module() -> str:
    """The text of structs.mjs."""
    known = [each for each in structs().values() if each.name != HANDLE]
    texts = {str(int(status)): text for status, text in rows.TEXTS.items()}
    words = {
        "STATUS_TEXTS": texts,
        "STATES": rows.STATES,
        "SUPERVISIONS": rows.SUPERVISIONS,
        "TARGETS": rows.TARGETS,
        "RULES": rows.RULES,
        "STANDINGS": rows.STANDINGS,
    }
    parts = [HEAD, f"export const LAYOUT = {header.layout(header.text())};\n\n"]
    parts += [enum(name, members) for name, members in enums()]
    parts += ["// How the program writes them.\n"]
    parts += [f"export const {name} = {json.dumps(value, ensure_ascii=False)};\n" for name, value in words.items()]
    parts += ["\n", WHOLE, "/** Reads a struct or a number at a place. */\nexport const read = {\n"]
    parts += [f"  {kind}: (view, at) => {form.format('at')},\n" for kind, form in READS.items()]
    parts += [*map(reader, known), "};\n\n"]
    parts += ["/** Writes a struct to a place. */\nexport const write = {\n"]
    parts += [*map(writer, filter(is_written, known)), "};\n\n"]
    parts += ["/** What each call takes. What a pointer leads to stands at a place of the desk. */\n"]
    parts += ["export const CALLS = {\n", *map(arguments, calls()), "};\n\n"]
    parts += [f"export const DESK_BYTES = {desk_bytes()};\nexport const HANDLE_BYTES = {structs()[HANDLE].size};\n\n"]
    parts += ["/** The records, by their first column. */\nexport const FORMS = {\n", *map(form, RECORDS), "};\n"]
    return "".join(parts)
