"""Authorities and restrictions in the order of their times, and the identities that restrictions get."""
from dataclasses import dataclass, field

from sdm.exact import MOST_CM
from sdm.records import End, EndCalculated, Limit, Record, Restriction, Revocation

from sdm.importing.faults import Findings, FieldPlace

MOST_KMH, MOST_IDENTITY, NO_IDENTITY = 500, 65_535, 255  # a restriction of NID_TSR 255 can't be revoked
Authority = End | EndCalculated | Limit


@dataclass(frozen=True)
class Event:
    """A record that isn't a reading, its time, and where it comes from."""

    time: int
    record: Record
    at: FieldPlace


@dataclass
class Events:
    """Collects the records; restrictions that come again are left out or revoked first."""

    findings: Findings
    found: list[Event] = field(default_factory=list)
    held: dict[int, Restriction] = field(default_factory=dict)
    free: int = NO_IDENTITY + 1

    def add(self, time: int, record: Record, at: FieldPlace) -> None:
        self.found.append(Event(time, record, at))

    def authority(self, time: int, record: Authority, at: FieldPlace) -> None:
        """An authority whose places and speeds are in their ranges; else a fault."""
        if isinstance(record, Limit):
            fits = self.is_place(record.loa_cm, "LOA", at) & self.is_speed(record.speed_kmh, at, 1)
        else:
            fits = self.is_place(record.eoa_cm, "EOA", at) & self.is_place(record.svl_cm, "SvL", at)
            fits &= not isinstance(record, End) or self.is_speed(record.release_kmh, at, 0)
            if fits and record.svl_cm < record.eoa_cm:
                self.findings.fault(at, f"an SvL at {record.svl_cm:,} cm", f"at least the EOA, {record.eoa_cm:,} cm")
                fits = False
            if fits and isinstance(record, EndCalculated) and not record.eoa_cm <= record.trip_cm <= record.svl_cm:
                expected = f"{record.eoa_cm:,} to {record.svl_cm:,} cm, from the EOA to the SvL"
                self.findings.fault(at, f"a trip place at {record.trip_cm:,} cm", expected)
                fits = False
        if fits:
            self.add(time, record, at)

    def restrict(self, time: int, made: Restriction, at: FieldPlace) -> None:
        """A restriction: left out where an equal one of its identity is held, after a revocation where another is."""
        fits = self.is_place(made.start_cm, "the start", at) & self.is_place(made.end_cm, "the end", at)
        fits &= self.is_speed(made.speed_kmh, at, 1)
        if not 0 <= made.id <= MOST_IDENTITY:
            self.findings.fault(at, f"the identity {made.id}", f"0 to {MOST_IDENTITY:,}")
        elif fits and made.end_cm <= made.start_cm:
            self.findings.fault(at, f"an end at {made.end_cm:,} cm", f"a place past the start, {made.start_cm:,} cm")
        elif fits and self.held.get(made.id) != made:
            if made.id in self.held:
                self.add(time, Revocation(made.id), at)
            self.held[made.id] = made
            self.add(time, made, at)

    def identity(self) -> int:
        """A free identity above 255."""
        while self.free in self.held:
            self.free += 1
        self.free += 1
        return self.free - 1

    def revoke(self, time: int, identity: int, at: FieldPlace) -> None:
        """The end of a restriction; of one that isn't held there is a warning alone."""
        if self.held.pop(identity, None) is None:
            self.findings.warn(at, f"no restriction {identity} is held: this revocation is left out")
        else:
            self.add(time, Revocation(identity), at)

    def is_place(self, place: int, name: str, at: FieldPlace) -> bool:
        if not 0 <= place <= MOST_CM:
            self.findings.fault(at, f"{name} at {place:,} cm", f"0 to {MOST_CM:,} cm")
        return 0 <= place <= MOST_CM

    def is_speed(self, speed: int, at: FieldPlace, least: int) -> bool:
        if not least <= speed <= MOST_KMH:
            self.findings.fault(at, f"{speed} km/h", f"{least} to {MOST_KMH} km/h")
        return least <= speed <= MOST_KMH
