"""Every fault of a data part, by the keys, ranges and rules of the model's tables (FORMATS "The data part").

The model stops at the first broken rule; here each section is gone through to its end.
"""
from typing import Any

from sdm.exact import (
    Area,
    Band,
    KIND,
    Key,
    Limit,
    National,
    REFUSED,
    Root,
    Stop,
    Table,
    Track,
    Train,
    is_of,
    keys_of,
    known_keys,
)

from sdm.findings.expected import due, kind_hint, nearest, range_of, smaller_hint, span, told, unit_of, with_unit
from sdm.findings.finding import Finding
from sdm.findings.toml_places import KeyPath, Places

SECTIONS: dict[str, type] = {"train": Train, "train.band": Band, "national": National, "track": Track}
SECTIONS |= {f"track.{key.name}": key.of for key in keys_of(Track) if key.kind is list}
SECTIONS["root"] = Root
AUTHORITIES: dict[str, type] = {"end": Stop, "limit": Limit}
HOMES = SECTIONS | {f"authority of the kind {kind}": made for kind, made in AUTHORITIES.items()}
NAMES_OF_KINDS = " or ".join(f'"{name}"' for name in AUTHORITIES)


def path_text(path: KeyPath) -> str:
    """A path as a fault line writes it: lists count from 1."""
    text = "".join(f"[{part + 1}]" if isinstance(part, int) else f".{part}" for part in path)
    return text.removeprefix(".") or "root"


class DataPart:
    """The faults of a table, and the numbers of it that hold: those of another kind or out of range count as absent."""

    def __init__(self, table: Table, places: Places, unread: frozenset[str] = frozenset()) -> None:
        """`unread` are the keys on lines that couldn't be read: they aren't missing."""
        self.table, self.places, self.unread = table, places, unread
        self.findings: list[Finding] = []
        self.version = 2
        self.section((), table, Root)
        version = table.get("version")
        self.version = 1 if is_of(int, version) and version == 1 else 2
        for name, made in (("train", Train), ("national", National), ("track", Track)):
            self.section((name,), table.get(name), made)
        self.bands()
        for key in known_keys(Track, self.version):
            if key.kind is list:
                self.track_list(key)
        self.authority()

    def tell(self, path: KeyPath, found: str, expected: str, hint: str = "", is_key: bool = False) -> None:
        """A fault at a value, or at a key."""
        at = self.places.of_key(path) if is_key else self.places.of_value(path)
        line, column = at if at is not None else (None, None)
        self.findings.append(Finding(line, column, path_text(path), found, expected, hint))

    def number(self, *path: str | int) -> int | None:
        """The whole number under a path, or None."""
        value: Any = self.table
        for part in path:
            if isinstance(value, dict) and part in value:
                value = value[part]
            elif isinstance(value, list) and isinstance(part, int) and part < len(value):
                value = value[part]
            else:
                return None
        return value if is_of(int, value) else None

    def tables(self, *path: str) -> list[Table]:
        """The tables of a list, or none where it isn't a list of tables."""
        value: Any = self.table
        for part in path:
            value = value.get(part) if isinstance(value, dict) else None
        return value if isinstance(value, list) and all(is_of(dict, each) for each in value) else []

    def section(self, path: KeyPath, table: Any, made: type, **ranges: tuple[int, int]) -> None:
        """A section's keys: not known, missing, of the wrong kind, out of range."""
        if not isinstance(table, dict):
            return
        keys = known_keys(made, self.version)
        explained = self.unknown(path, table, keys)
        for key in keys:
            ends = ranges.get(key.name, range_of(key, self.version))
            if key.name in table:
                self.value(path + (key.name,), key, table[key.name], ends)
            elif key.absent is REFUSED and key.name not in explained and key.name not in self.unread:
                missing = path_text(path + (key.name,))
                self.tell(path, f"no key {missing}", f"{missing}: {due(key, ends, self.version)}", is_key=True)

    def value(self, path: KeyPath, key: Key, value: Any, ends: tuple[int, int]) -> None:
        """One value: its kind, and of a number the range."""
        if not is_of(key.kind, value) or key.kind is list and not all(is_of(dict, each) for each in value):
            hint = kind_hint(key, value, ends, self.version)
            self.tell(path, told(value), due(key, ends, self.version), hint)
        elif key.kind is int and not (ends[0] <= value <= ends[1] and value % key.step == 0):
            unit = unit_of(key, self.version)
            hint = smaller_hint(value, unit, ends)
            self.tell(path, with_unit(str(value), unit), span(*ends, unit, key.step), hint)

    def unknown(self, path: KeyPath, table: Table, keys: list[Key]) -> set[str]:
        """Tells the keys that a section doesn't know; answers the missing ones that are meant by them."""
        meant: set[str] = set()
        names = [key.name for key in keys]
        for name in table:
            if name in names:
                continue
            elsewhere = self.elsewhere(name)
            near = None if elsewhere else nearest(name, names)
            key = next((key for key in keys if key.name == near), None)
            if key is None:
                free = ", ".join(each for each in names if each not in table)
                expected, hint = f"one of {free}" if free else "no further key", elsewhere
            else:
                expected = f"{key.name}: {due(key, range_of(key, self.version), self.version)}"
                is_there = key.name in table
                hint = f"{key.name} is the nearest key{', and is there' if is_there else ''}"
                meant |= set() if is_there else {key.name}
            self.tell(path + (name,), "a key that isn't known here", expected, hint, is_key=True)
        return meant

    def elsewhere(self, name: str) -> str:
        """Where an unknown key is known."""
        homes = {home: key for home, made in HOMES.items() for key in keys_of(made) if key.name == name}
        if not homes:
            return ""
        is_newer = all(key.since > self.version for key in homes.values())
        return f"it is a key of {' and of '.join(homes)}" + (", from version 2 on" if is_newer else "")

    def bands(self) -> None:
        """The speed bands: each one, how many, and their order."""
        bands, count = self.tables("train", "band"), next(key for key in keys_of(Train) if key.kind is list)
        for i, band in enumerate(bands):
            emergency = self.number("train", "band", i, "emergency")
            most = {} if emergency is None else {"emergency_reduced": (1, emergency)}
            self.section(("train", "band", i), band, Band, **most)
        if "band" in self.table.get("train", {}) and not count.least <= len(bands) <= count.most:
            self.tell(("train", "band"), f"{len(bands)} bands", f"{count.least} to {count.most}", is_key=True)
        before = 0
        for i, band in enumerate(bands):
            path, upper = ("train", "band", i, "upper"), self.number("train", "band", i, "upper")
            is_last = i == len(bands) - 1
            if is_last and "upper" in band:
                self.tell(path, told(band["upper"]), "no upper speed, since this is the last band", is_key=True)
            elif not is_last and "upper" not in band:
                self.tell(path, "no key upper", f"upper above {before} km/h; the last band alone has none", is_key=True)
            elif not is_last and upper is not None and upper <= before:
                self.tell(path, f"{upper} km/h", f"more than {before} km/h, that of the band before: bands rise")
            before = upper or before

    def track_list(self, key: Key) -> None:
        """A list of the track: each entry, how many, the first start, and the order."""
        entries, length, path = self.tables("track", key.name), self.number("track", "length"), ("track", key.name)
        own = next(key for key in keys_of(Track) if key.name == "length")
        length = length if length is not None and own.least <= length <= own.most else own.most
        for i, entry in enumerate(entries):
            start = self.number(*path, i, "start")
            ends = (0 if start is None else start + 1, length)
            self.section((*path, i), entry, key.of, start=(0, length - 1), end=ends)
        if isinstance(self.table.get("track"), dict) and isinstance(self.table["track"].get(key.name), list):
            if not key.least <= len(entries) <= key.most:
                self.tell(path, f"{len(entries)} entries", f"{key.least} to {key.most}", is_key=True)
        self.order(key, path, len(entries))

    def order(self, key: Key, path: tuple[str, str], count: int) -> None:
        """Where a list begins, and that its entries rise."""
        first = self.number(*path, 0, "start")
        if first is not None and first != 0 and key.of is not Area:
            self.tell((*path, 0, "start"), f"{first} cm", "0 cm: the first entry is that of the track's start")
        for i in range(1, count):
            start, before = self.number(*path, i, "start"), self.number(*path, i - 1, "start")
            end = self.number(*path, i - 1, "end")
            if start is None:
                continue
            if key.of is Area and end is not None and start < end:
                self.tell((*path, i, "start"), f"{start} cm", f"at least {end} cm, the end of the area before")
            elif key.of is not Area and before is not None and start <= before:
                self.tell((*path, i, "start"), f"{start} cm", f"more than {before} cm, the start of the entry before")

    def authority(self) -> None:
        """The authority: its kind, and the keys of that kind."""
        table = self.table.get("authority")
        if not isinstance(table, dict):
            return
        kind = table.get(KIND.name)
        rest = {name: value for name, value in table.items() if name != KIND.name}
        if KIND.name not in table and KIND.name not in self.unread:
            self.tell(("authority",), "no key authority.kind", f"authority.kind: {NAMES_OF_KINDS}", is_key=True)
        elif KIND.name in table and kind not in AUTHORITIES:
            near = nearest(str(kind), list(AUTHORITIES))
            self.tell(("authority", KIND.name), told(kind), NAMES_OF_KINDS, f'"{near}" is the nearest' if near else "")
        made = AUTHORITIES.get(kind) if isinstance(kind, str) else None
        if made is not None:
            self.section(("authority",), rest, made)
