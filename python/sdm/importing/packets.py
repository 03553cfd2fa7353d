"""Decoded packets as rows of a CSV: the columns are named as the variables, a packet's entries follow one another.

The meanings are those of docs/LABORATORY.md, "Packets of a recording". What has none here is refused or warned of by
name.
"""
from collections.abc import Callable, Iterator
from dataclasses import dataclass, field
from fractions import Fraction
from itertools import groupby
from typing import Any

from sdm.records import End, EndCalculated, Limit, Restriction

from sdm.importing.events import Authority, Events, NO_IDENTITY
from sdm.importing.faults import FieldPlace
from sdm.importing.mapping import Mapping, Part
from sdm.importing.readings import group_of
from sdm.importing.tables import FileLine, decimal_of
from sdm.importing.times import Times
from sdm.importing.track import RecordedTrack
from sdm.importing.track import Profile, Stretch

SCALES = {0: 10, 1: 100, 2: 1000}  # Q_SCALE: cm in a unit
SPEED_STEP, MOST_STEPS, END_OF_SPEEDS, END_OF_GRADIENTS = 5, 120, 127, 255  # km/h in a step of V_..
MOST_DS = 10**9  # a packet may come before the recording
CALCULATED, NATIONAL = 126, 127  # of V_RELEASEDP and V_RELEASEOL
SINGLE = {65, 66, 71}  # each row is a packet of its own
USED = {  # the variables that have a meaning here
    5: {"Q_SCALE", "D_LINK", "NID_BG"},
    12: {"Q_SCALE", "V_LOA", "V_EMA", "L_SECTION", "L_ENDSECTION", "Q_DANGERPOINT", "D_DP", "V_RELEASEDP"}
    | {"Q_OVERLAP", "D_OL", "V_RELEASEOL"},
    21: {"Q_SCALE", "D_GRADIENT", "Q_GDIR", "G_A"},
    27: {"Q_SCALE", "D_STATIC", "V_STATIC", "Q_FRONT"},
    65: {"Q_SCALE", "NID_TSR", "D_TSR", "L_TSR", "Q_FRONT", "V_TSR"},
    66: {"NID_TSR"},
    68: {"Q_SCALE", "Q_TRACKINIT", "D_TRACKCOND", "L_TRACKCOND", "M_TRACKCOND"},
    71: {"Q_SCALE", "D_ADHESION", "L_ADHESION", "M_ADHESION"},
}
USED[15] = USED[12]


@dataclass(frozen=True)
class Packet:
    """The rows of a packet: its number, time, reference (cm) and the unit of its lengths (cm)."""

    number: int
    time: int
    reference: int
    unit: int
    rows: tuple[FileLine, ...]


@dataclass
class Packets:
    """Reads the file of the packets, in the order of its lines."""

    mapping: Mapping
    part: Part
    events: Events
    track: RecordedTrack
    first_reading: int  # its time
    unused: dict[str, tuple[FileLine, set[int]]] = field(default_factory=dict)  # where first, and in which packets

    def __post_init__(self) -> None:
        self.findings, self.table, self.groups = self.mapping.findings, self.part.table, self.mapping.groups
        self.group = group_of(self.mapping, self.part)
        self.special: list[int] = self.part.others.get("M_TRACKCOND", [])  # those that leave the special brake out
        if "NID_PACKET" not in self.table.columns and self.table.columns:
            self.findings.fault(FieldPlace(self.table.name, 1), "no column NID_PACKET", "it")
        if (self.group is None) == ("reference" not in self.part.columns):
            expected = "either `group`, the column of the reference group, or `reference`, of its place"
            self.findings.fault(self.mapping.place("import.packets"), "both or none of them", expected)

    # Fields

    def at(self, row: FileLine, variable: str = "") -> FieldPlace:
        return self.table.at(row, variable)

    def has(self, row: FileLine, variable: str) -> bool:
        return row.fields.get(variable, "").strip() not in ("", "-")

    def whole(self, row: FileLine, variable: str, least: int, most: int) -> int | None:
        """The number of a variable; a fault where it is none, or out of its range."""
        text = row.fields.get(variable, "").strip()
        number = decimal_of(text, self.table.decimal)
        if number is None or number.denominator != 1 or not least <= number <= most:
            self.findings.fault(self.at(row, variable), repr(text) if text else "no value", f"{least} to {most:,}")
            return None
        return int(number)

    def speed(self, row: FileLine, variable: str, least: int = 1) -> int | None:
        """A speed in km/h."""
        steps = self.whole(row, variable, least, MOST_STEPS)
        return None if steps is None else SPEED_STEP * steps

    def length(self, packet: Packet, row: FileLine, variable: str, least: int = 0) -> int | None:
        """A length in cm."""
        units = self.whole(row, variable, least, 32_767)
        return None if units is None else packet.unit * units

    # Packets

    def packets(self) -> Iterator[Packet]:
        """The packets: rows of one number, time and reference that follow one another."""
        self.findings.end_if_faulty()
        times, last = Times(self.mapping, self.part), -MOST_DS
        rows = []
        for row in self.table.lines:
            number, time = self.whole(row, "NID_PACKET", 0, 255), times.of(row)
            if number is None or time is None:
                continue
            if time < last:
                self.findings.fault(self.at(row), f"{time:,} ds", f"at least {last:,} ds: times never go back")
            last = max(last, time)
            reference = row.fields.get(self.group.name if self.group else self.part.columns["reference"].name, "")
            rows.append((number, time, reference.strip(), row.number if number in SINGLE else 0, row))
        for (number, time, _, _), grouped in groupby(rows, lambda each: each[:4]):
            packet = self.packet(number, time, tuple(each[4] for each in grouped))
            if packet is not None:
                yield packet

    def packet(self, number: int, time: int, rows: tuple[FileLine, ...]) -> Packet | None:
        """A packet that has a meaning here; None where it has none, which is a warning or a fault."""
        first = rows[0]
        if number not in USED:
            if number in self.part.others.get("leave_out", []):
                self.findings.warn(self.at(first), f"packet {number} is left out", f"packet {number}")
            else:
                known = ", ".join(map(str, sorted(USED)))
                expected = f"one of {known}; `leave_out` of `import.packets` lists others that may be left out"
                self.findings.fault(self.at(first, "NID_PACKET"), number, expected)
            return None
        self.note_unused(number, rows)
        if number == 66:
            return Packet(number, time, 0, 0, rows)
        reference, scale = self.reference(first), self.whole(first, "Q_SCALE", 0, 2)
        return None if reference is None or scale is None else Packet(number, time, reference, SCALES[scale], rows)

    def note_unused(self, number: int, rows: tuple[FileLine, ...]) -> None:
        """Notes each variable that has a value and no meaning in this packet."""
        mapped = {column.name for column in self.part.columns.values()} | {"NID_PACKET"}
        mapped |= {column.name for column in (self.group, self.part.time) if column is not None}
        for row in rows:
            for variable in row.fields:
                if self.has(row, variable) and variable not in USED[number] | mapped:
                    self.unused.setdefault(variable, (row, set()))[1].add(number)

    def warn_of_unused(self) -> None:
        """Names the variables that weren't used, with their packets."""
        for variable, (row, numbers) in self.unused.items():
            of = ("packet " if len(numbers) == 1 else "packets ") + ", ".join(map(str, sorted(numbers)))
            self.findings.warn(self.at(row, variable), f"{variable} isn't used: it has no meaning here in {of}")

    def reference(self, row: FileLine) -> int | None:
        """The place that lengths count from, in cm."""
        if self.group is None:
            place = self.part.columns["reference"].number(self.table, row, self.findings)
            if place is None:
                at = self.at(row, self.part.columns["reference"].name)
                self.findings.fault(at, "no place", "the place of the reference group")
            return None if place is None else round(place)
        identity = self.group.text(row)
        if identity not in self.groups:
            expected = "a group of `import.groups`, or of a packet 5 before it"
            self.findings.fault(self.at(row, self.group.name), f"the group {identity}", expected)
            return None
        return self.groups[identity]

    def read(self) -> None:
        """Reads all packets."""
        readers: dict[int, Callable[[Packet], None]] = {
            5: self.linking,
            12: self.authority,
            15: self.authority,
            21: self.gradients,
            27: self.speeds,
            65: self.restriction,
            66: self.revocation,
            68: self.conditions,
            71: self.adhesion,
        }
        for packet in self.packets():
            if packet.number in (21, 27, 68, 71) and packet.time > self.first_reading:
                text = f"packet {packet.number} comes after the first reading: the run has it from its beginning"
                self.findings.warn(self.at(packet.rows[0]), text)
            readers[packet.number](packet)
        self.warn_of_unused()

    def chained(self, packet: Packet, variable: str) -> list[tuple[FileLine, int]]:
        """The rows that have a distance, each with the place: distances count from the element before."""
        place, found = packet.reference, []
        for row in packet.rows:
            length = self.length(packet, row, variable)
            if length is not None:
                place += length
                found.append((row, place))
        return found

    def linking(self, packet: Packet) -> None:
        """Packet 5: the places of balise groups."""
        for row, place in self.chained(packet, "D_LINK"):
            identity = row.fields.get("NID_BG", "").strip()
            if not identity:
                self.findings.fault(self.at(row, "NID_BG"), "no value", "the identity of the linked group")
            elif self.groups.setdefault(identity, place) != place:
                text = f"group {identity} is at {self.groups[identity]:,} cm already; this packet has {place:,} cm"
                self.findings.warn(self.at(row, "D_LINK"), text)

    def authority(self, packet: Packet) -> None:
        """Packets 12 and 15."""
        last = packet.rows[-1]
        at, place = self.at(last), packet.reference
        for row in packet.rows:
            if self.has(row, "L_SECTION"):
                place += self.length(packet, row, "L_SECTION") or 0
            if self.has(row, "V_MAIN") and self.whole(row, "V_MAIN", 1, 127) is None:
                return  # a V_MAIN of 0 is a trip: stop comparing there
        variable = "V_EMA" if self.has(packet.rows[0], "V_EMA") else "V_LOA"
        steps, end = self.whole(packet.rows[0], variable, 0, MOST_STEPS), self.length(packet, last, "L_ENDSECTION")
        if steps is None or end is None:
            return
        if steps:
            self.events.authority(packet.time, Limit(place + end, SPEED_STEP * steps), at)
            return
        made = self.stop(packet, last, place + end)
        if made is not None:
            self.events.authority(packet.time, made, at)

    def stop(self, packet: Packet, row: FileLine, eoa: int) -> Authority | None:
        """An authority to an end: the SvL by the overlap, else by the danger point, and the release speed of that."""
        for flag, distance, release in (
            ("Q_OVERLAP", "D_OL", "V_RELEASEOL"),
            ("Q_DANGERPOINT", "D_DP", "V_RELEASEDP"),
        ):
            is_there = self.whole(row, flag, 0, 1) if self.has(row, flag) else int(self.has(row, distance))
            if is_there:
                length = self.length(packet, row, distance)
                return None if length is None else self.released(row, eoa, eoa + length, release)
        return End(eoa, eoa)

    def released(self, row: FileLine, eoa: int, svl: int, variable: str) -> Authority | None:
        """The authority with its release speed, given, national or calculated."""
        steps = self.whole(row, variable, 0, 127)
        if steps is None or steps <= MOST_STEPS:
            return None if steps is None else End(eoa, svl, SPEED_STEP * steps)
        at = self.at(row, variable)
        if steps == NATIONAL:
            speed = self.part.others.get("V_NVREL")
            if isinstance(speed, int):
                return End(eoa, svl, speed)
            self.findings.fault(at, "127, the national release speed", "`V_NVREL` of `import.packets`, in km/h")
        elif steps == CALCULATED:
            own, trip = self.mapped(row, "release"), self.mapped(row, "trip")
            if trip is not None:
                return EndCalculated(eoa, svl, -int(-trip // 1))
            if own is not None:
                return End(eoa, svl, int(own // 1))
            self.findings.fault(
                at, "126, a calculated release speed", "columns `trip` or `release` of `import.packets`"
            )
        else:
            self.findings.fault(at, steps, "0 to 120, 126 or 127")
        return None

    def mapped(self, row: FileLine, key: str) -> Fraction | None:
        """A quantity that the mapping adds to packets."""
        column = self.part.columns.get(key)
        if column is None:
            return None
        value = column.number(self.table, row, self.findings)
        column.warn_if_nearly_whole(value, self.table, row, self.findings)
        return value

    def gradients(self, packet: Packet) -> None:
        """Packet 21: tenths of a per mille, uphill positive."""
        entries: list[tuple[int, Any]] = []
        for row, place in self.chained(packet, "D_GRADIENT"):
            value = self.whole(row, "G_A", 0, 255)
            if value == END_OF_GRADIENTS:
                return self.describe(self.track.gradient, packet, entries, place)
            direction = self.whole(row, "Q_GDIR", 0, 1)
            if value is not None and value > 80:
                self.findings.fault(self.at(row, "G_A"), f"{value} per mille", "at most 80, or 255 for the end")
            elif value is not None and direction is not None:
                entries.append((place, 10 * value if direction else -10 * value))
        self.describe(self.track.gradient, packet, entries, None)

    def speeds(self, packet: Packet) -> None:
        """Packet 27: km/h, and whether the end counts for the rear end."""
        entries: list[tuple[int, Any]] = []
        for row in packet.rows:
            if self.has(row, "V_DIFF"):
                self.findings.fault(self.at(row, "V_DIFF"), "a speed of a category", "this train's speed in V_STATIC")
        for row, place in self.chained(packet, "D_STATIC"):
            steps = self.whole(row, "V_STATIC", 1, END_OF_SPEEDS)
            if steps == END_OF_SPEEDS:
                return self.describe(self.track.speed, packet, entries, place)
            front = self.whole(row, "Q_FRONT", 0, 1)
            if steps is not None and steps > MOST_STEPS:
                self.findings.fault(self.at(row, "V_STATIC"), steps, "1 to 120, or 127 for the end")
            elif steps is not None and front is not None:
                entries.append((place, (SPEED_STEP * steps, front == 0)))
        self.describe(self.track.speed, packet, entries, None)

    def describe(self, profile: Profile, packet: Packet, entries: list[tuple[int, Any]], end: int | None) -> None:
        if entries:
            profile.add(Stretch(tuple(entries), end, self.at(packet.rows[0])))

    def restriction(self, packet: Packet) -> None:
        """Packet 65."""
        row = packet.rows[0]
        identity, front = self.whole(row, "NID_TSR", 0, 255), self.whole(row, "Q_FRONT", 0, 1)
        start, length = self.length(packet, row, "D_TSR"), self.length(packet, row, "L_TSR", 1)
        speed = self.speed(row, "V_TSR")
        if identity is None or front is None or start is None or length is None or speed is None:
            return
        start += packet.reference
        if identity == NO_IDENTITY:
            held = [each for each in self.events.held.values() if each.id > NO_IDENTITY]
            same = [each.id for each in held if each == Restriction(each.id, start, start + length, speed, front == 0)]
            identity = same[0] if same else self.events.identity()
        made = Restriction(identity, start, start + length, speed, front == 0)
        self.events.restrict(packet.time, made, self.at(row))

    def revocation(self, packet: Packet) -> None:
        """Packet 66."""
        row = packet.rows[0]
        identity = self.whole(row, "NID_TSR", 0, NO_IDENTITY - 1)
        if identity is not None:
            self.events.revoke(packet.time, identity, self.at(row))

    def conditions(self, packet: Packet) -> None:
        """Packet 68: the areas in which the special brake isn't used."""
        if self.has(packet.rows[0], "Q_TRACKINIT") and self.whole(packet.rows[0], "Q_TRACKINIT", 0, 0) is None:
            return
        for row, place in self.chained(packet, "D_TRACKCOND"):
            length = self.length(packet, row, "L_TRACKCOND", 1)
            kind = self.whole(row, "M_TRACKCOND", 0, 15)
            if kind is not None and kind not in self.special:
                text = f"M_TRACKCOND {kind} isn't listed in `import.packets`, and is left out"
                self.findings.warn(self.at(row, "M_TRACKCOND"), text, text)
            elif kind is not None and length is not None:
                self.track.no_special.add(place, place + length)

    def adhesion(self, packet: Packet) -> None:
        """Packet 71: the areas that are slippery."""
        row = packet.rows[0]
        start, length = self.length(packet, row, "D_ADHESION"), self.length(packet, row, "L_ADHESION", 1)
        kind = self.whole(row, "M_ADHESION", 0, 1)
        if kind == 1:
            self.findings.warn(self.at(row, "M_ADHESION"), "M_ADHESION 1, which isn't slippery, makes no area")
        elif kind is not None and start is not None and length is not None:
            self.track.adhesion.add(packet.reference + start, packet.reference + start + length)
