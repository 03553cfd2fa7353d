"""Holds three texts of the interface for C against each other: the header (c/sdm.h), the source (crates/sdm_c/src)
and the binding for Ada (c/ada/sdm.ads). The numbers of the layout, of the version, which is that of CHANGELOG.md, and
of the statuses, the codes of a row, of a display, of causes and of fields, the fields of each struct with their types
in their order, and the arguments of each call in theirs must be the same. A number that is handed over is compared by
its name too, so that no two of one type can be swapped; what a pointer leads to by whether the call may change it: in
the source it is lent for reading, or a clause says that it stays.

    scripts/house check interface    fails where they differ
"""
from __future__ import annotations

import re

from scripts.c import header
from scripts.pages import manual
from scripts.pages.part import told
from scripts.pages.specs import CRATES, ROOT

SOURCE = CRATES / "sdm_c" / "src"
ADA = ROOT / "c" / "ada" / "sdm.ads"

# Each struct of the header, as the source and the binding name it.
STRUCTS = {
    "sdm": ("Handle", "Supervisor"),
    "sdm_reading": ("ReadingC", "Reading"),
    "sdm_place": ("PlaceC", "Place"),
    "sdm_row": ("RowC", "Row"),
    "sdm_restriction": ("RestrictionC", "Restriction"),
    "sdm_allowance": ("AllowanceC", "Allowance"),
    "sdm_display": ("DisplayC", "Display"),
    "sdm_cause": ("CauseC", "Cause"),
    "sdm_causes": ("CausesC", "Causes"),
    "sdm_line": ("LineC", "Line"),
}
NUMBERS = {"uint32_t": ("u32", "Word"), "int32_t": ("i32", "Signed_Word"), "int64_t": ("i64", "Signed_Long")}
KINDS = {**STRUCTS, **NUMBERS}
OF_SOURCE = {names[0]: kind for kind, names in KINDS.items()}
OF_ADA = {names[1]: kind for kind, names in KINDS.items()}
# What a code of the header stands for in the source.
CODES = {
    "SDM_CEILING": "State::C",
    "SDM_TARGET": "State::T",
    "SDM_RELEASE": "State::R",
    "SDM_NORMAL": "Status::N",
    "SDM_INDICATION": "Status::I",
    "SDM_OVERSPEED": "Status::O",
    "SDM_WARNING": "Status::W",
    "SDM_INTERVENTION": "Status::X",
    "SDM_FALL": "TargetKind::Mrsp",
    "SDM_EOA": "TargetKind::Eoa",
    "SDM_SVL": "TargetKind::Svl",
    "SDM_LOA": "TargetKind::Loa",
    "SDM_ABOVE_CEILING": "Cause::Ceiling",
    "SDM_PAST_TARGET": "Cause::Passed",
    "SDM_PAST_END": "Cause::EndOfAuthority",
    "SDM_ABOVE_RELEASE": "Cause::ReleaseSpeed",
    "SDM_NO_SERVICE_BRAKE": "Cause::NoServiceBrake",
    "SDM_OFF": "Standing::Off",
    "SDM_SET": "Standing::Set",
    "SDM_HELD_TO_PERMITTED_SPEED": "Until::PermittedSpeed",
    "SDM_HELD_TO_STANDSTILL": "Until::Standstill",
    "SDM_HELD_TO_EITHER": "Until::StandstillOrPermittedSpeed",
}
# What in the binding has a number of its own, and isn't a status.
OF_THE_BINDING = {"Layout_Of_Binding": "the layout", "Version_Of_Binding": "the version"}

# A call of the source: its name, its arguments, what it answers, and its contract.
CALL = re.compile(r'extern "C" fn (\w+)\(([^)]*)\)(?: -> (\w+))?\n((?:    .*\n)*)\{')

Listed = dict[str, object]


def of_header() -> Listed:
    """What the header says, by what it is said of."""
    text = header.text()
    said: Listed = {"the layout": header.layout(text), "the version": header.version(text)}
    said |= {f"the status {name.lower()}": number for name, number in header.statuses(text).items()}
    numbers = {name: number for codes in header.codes(text).values() for name, number in codes.items()}
    said |= {f"the code {name}": numbers[name] for name in CODES if name in numbers}
    said |= {f"the code {name}": number for name, number in header.codes(text)["sdm_field"].items()}
    for name, fields in header.structs(text).items():
        if name != "sdm":  # what a handle holds is the library's own
            said[f"the fields of {name}"] = [(field.name, field.kind + field.count) for field in fields]
    for name, (result, given) in header.functions(text).items():
        arguments = [argument(each.kind + "*" * each.is_pointer, each.name, each.is_const) for each in given]
        said[f"the call {name}"] = (result.kind, arguments)
    return said


def argument(kind: str, name: str, is_const: bool) -> str:
    """An argument: a number, or one that is written to, by its name; what another pointer leads to by its type and
    whether the call may change it."""
    bare = kind.rstrip("*")
    return f"{kind} {name}" if bare in NUMBERS else f"const {bare}" if is_const else bare


def of_source() -> Listed:
    """What the source says. What it could change, and by a clause doesn't, counts as the header has it."""
    functions = header.functions(header.text()).items()
    constant = {(name, each.name) for name, (_, given) in functions for each in given if each.is_const}
    text = "".join(path.read_text() for path in sorted(SOURCE.glob("*.rt")))
    sizes = dict(re.findall(r"const (\w+): usize = (\d+);", text))
    said: Listed = {f"the {name.lower()}": number for name, number in constants("lib")}
    said |= {f"the status {name.lower()}": number for name, number in constants("statuses")}
    said |= {f"the code SDM_{name}": number for name, number in constants("fields")}
    arms = dict(re.findall(r"(\w+::\w+)(?:\(_\))? => (\d+),", text))
    said |= {f"the code {name}": int(arms[arm]) for name, arm in CODES.items() if arm in arms}
    for name, body in re.findall(r"^pub struct (\w+) \{\n(.*?)^\}", text, re.M | re.S):
        if name in OF_SOURCE and name != "Handle":
            fields = re.findall(r"pub (\w+): (?:\[u8; (\w+)\]|(\w+)),", body)
            kinds = [(field, f"uint8_t{sizes[count]}" if count else OF_SOURCE[kind]) for field, count, kind in fields]
            said[f"the fields of {OF_SOURCE[name]}"] = kinds
    for name, listed, result, contract in re.findall(CALL, text):
        arguments: list[str] = []
        for given, kind in (each.strip().split(": ") for each in listed.split(",") if each.strip()):
            if kind == "&[u8]":
                arguments += ["const uint8_t", "size_t"]
            elif kind != "Global":  # which takes no room
                is_kept = f"{{ {given}.new ≡ {given}.old }}" in contract and (name, given) in constant
                kept = is_kept or not kind.startswith("&mut ")
                pointer = "*" if kind.startswith("&") else ""
                named = OF_SOURCE[kind.removeprefix("&").removeprefix("mut ")] + pointer
                arguments.append(argument(named, given, kept))
        said[f"the call {name}"] = (OF_SOURCE[result] if result else "void", arguments)
    return said


def constants(module: str) -> list[tuple[str, int]]:
    """The numbers with a name of a module of the source."""
    found = re.findall(r"^pub const (\w+): u32 = ([\d_]+);", (SOURCE / f"{module}.rt").read_text(), re.M)
    return [(name, int(number)) for name, number in found]


def of_ada() -> Listed:
    """What the binding says; its codes stand in remarks alone."""
    text = re.sub(r"--.*", "", ADA.read_text())
    numbered = re.findall(r"(\w+) +: constant Word := (\d+);", text)
    said: Listed = {OF_THE_BINDING.get(name, f"the status {name.lower()}"): int(n) for name, n in numbered}
    for name, body in re.findall(r"type (\w+) is record\n(.*?)end record", text, re.S):
        fields = []
        for names, kind in re.findall(r"([\w, \n]+?) *: ([\w ().]+?)(?: :=[^;]*)?;", body):
            bytes_ = re.fullmatch(r"Bytes \(1 \.\. (\d+)\)", kind)
            known = f"uint8_t{bytes_[1]}" if bytes_ else OF_ADA[kind]
            fields += [
                ({"text": "bytes"}.get(each.lower(), each.lower()), known)
                for each in re.split(r"[,\s]+", names.strip())
            ]
        said[f"the fields of {OF_ADA[name]}"] = fields
    imported = r"(?:function|procedure) \w+\s*(?:\(([^)]*)\))?(?: return (\w+))?\s+"
    imported += r"with Import, Convention => C, External_Name => \"(\w+)\""
    for listed, result, name in re.findall(imported, text):
        if name not in header.texts(header.text()):
            arguments = [each for part in listed.split(";") if part.strip() for each in of_ada_arguments(part)]
            said[f"the call {name}"] = (OF_ADA[result] if result else "void", arguments)
    return said


def of_ada_arguments(part: str) -> list[str]:
    """The arguments of one type in a row."""
    names, kind = (each.strip() for each in part.split(":"))
    is_kept, pointer = not kind.startswith("in out "), "*" if kind.startswith("in out ") else ""
    kind = kind.removeprefix("in out ")
    known = {"System.Address": "const uint8_t", "Interfaces.C.size_t": "size_t"}
    listed = re.split(r",\s*", names)
    return [known.get(kind) or argument(OF_ADA[kind] + pointer, name.lower(), is_kept) for name in listed]


def version_number(version: str) -> int:
    """A version as a number, as SDM_VERSION has it."""
    first, second, third = (int(each) for each in version.split("."))
    return 1_000_000 * first + 1_000 * second + third


def main(_: list[str]) -> int:
    due, faults = of_header(), []
    for name in header.texts(header.text()):
        due.pop(f"the call {name}")
    if due["the version"] != version_number(manual.version()):
        faults.append(f"c/sdm.h: the version {due['the version']} isn't that of CHANGELOG.md, {manual.version()}")
    for where, said in (("crates/sdm_c/src", of_source()), ("c/ada/sdm.ads", of_ada())):
        compared = {what: known for what, known in due.items() if "code" not in what.split() or "ada" not in where}
        for what in sorted({*compared, *said}):
            if compared.get(what) != said.get(what):
                faults.append(f"{where}: {what}: {said.get(what)}, in c/sdm.h {compared.get(what)}")
    return told("interface", len(due), faults)
