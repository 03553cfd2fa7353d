"""Authorities, restrictions and profiles that stand in columns: of the recording, or of a file of their own.

In the recording a change of the values makes a record or an entry; in a file of its own each line does.
"""
import math
from collections.abc import Iterator
from fractions import Fraction

from sdm.records import End, EndCalculated, Limit, Restriction

from sdm.importing.events import Authority, Events
from sdm.importing.faults import FieldPlace
from sdm.importing.mapping import Mapping, Part
from sdm.importing.readings import SourcedReading
from sdm.importing.tables import FileLine
from sdm.importing.times import Times
from sdm.importing.track import Areas, Profile, Stretch
from sdm.importing.track import RecordedTrack

Values = dict[str, Fraction | None]


def changes(mapping: Mapping, part: Part) -> Iterator[tuple[FileLine, int, Values]]:
    """The lines that say something new, each with its time and its values."""
    times, last = Times(mapping, part), dict.fromkeys(part.columns)
    for line in part.table.lines:
        values = {key: column.number(part.table, line, mapping.findings) for key, column in part.columns.items()}
        if part.is_recording and values == last:
            continue
        last, time = values, times.of(line)
        for key, column in part.columns.items():
            column.warn_if_nearly_whole(values[key], part.table, line, mapping.findings)
        if time is not None:
            yield line, time, values


def down(value: Fraction | None) -> int | None:
    return None if value is None else math.floor(value)


def authorities(mapping: Mapping, part: Part, events: Events) -> None:
    """Authorities to an end (`eoa`, with `svl`, `release` or `trip`), or to a limit (`loa`, `speed`)."""
    if ("eoa" in part.columns) == ("loa" in part.columns) or ("loa" in part.columns) != ("speed" in part.columns):
        found = ", ".join(part.columns) or "no column"
        mapping.findings.fault(mapping.place("import.authority"), found, "`eoa`, or `loa` with `speed`")
        return
    for line, time, values in changes(mapping, part):
        if part.is_recording and not any(value is not None for value in values.values()):
            continue  # the one before goes on
        made = authority_of({key: down(value) for key, value in values.items() if key != "trip"}, values.get("trip"))
        if made is None:
            at = part.table.at(line)
            mapping.findings.fault(at, "an authority that lacks a value", "places and speeds of all its columns")
        else:
            events.authority(time, made, part.table.at(line))


def authority_of(values: dict[str, int | None], trip: Fraction | None) -> Authority | None:
    eoa, loa, speed = values.get("eoa"), values.get("loa"), values.get("speed")
    if loa is not None and speed is not None:
        return Limit(loa, speed)
    if eoa is None:
        return None
    svl = values.get("svl")
    svl = eoa if svl is None else svl
    return EndCalculated(eoa, svl, math.ceil(trip)) if trip is not None else End(eoa, svl, values.get("release") or 0)


def restrictions(mapping: Mapping, part: Part, events: Events) -> None:
    """Restrictions; a line without a start revokes: of a file the one of its `id`, of the recording the one before."""
    held: int | None = None
    for line, time, values in changes(mapping, part):
        at, start, end, speed = part.table.at(line), values["start"], values["end"], down(values["speed"])
        given = down(values.get("id"))
        if start is None and end is None and speed is None:
            revoked = held if part.is_recording else given
            if revoked is not None:
                events.revoke(time, revoked, at)
            elif not part.is_recording:
                mapping.findings.fault(at, "no start and no `id`", "a restriction, or the `id` of one to revoke")
            held = None
        elif start is None or end is None or speed is None:
            mapping.findings.fault(at, "a restriction that lacks a value", "start, end and speed, or none of them")
        else:
            if part.is_recording and held is not None and held != given:
                events.revoke(time, held, at)
            held = events.identity() if given is None else given
            is_delayed = bool(values.get("delayed"))
            made = Restriction(held, math.floor(start), math.ceil(end), speed, is_delayed)
            events.restrict(time, made, at)


def profile(mapping: Mapping, part: Part, known: Profile, readings: list[SourcedReading]) -> None:
    """Gradients or speeds; in the recording each change begins at the estimated front end of its line."""
    fronts = {each.line.number: round(Fraction(each.reading.est_mm, 10)) for each in readings}
    entries: list[tuple[int, object]] = []
    for line, _, values in changes(mapping, part):
        at, start = part.table.at(line), values.get("start")
        place = fronts.get(line.number) if part.is_recording and "start" not in part.columns else down(start)
        value = value_of(part.name, values)
        if place is None or value is None:
            mapping.findings.fault(at, f"a {part.name} that lacks a value", "its start and its value")
        elif entries and place <= entries[-1][0]:
            mapping.findings.fault(
                at, f"a start at {place:,} cm", f"a place past the one before, {entries[-1][0]:,} cm"
            )
        else:
            entries.append((place, value))
    if entries:
        known.add(Stretch(tuple(entries), None, FieldPlace(part.table.name)))


def value_of(name: str, values: Values) -> object | None:
    """What an entry of the data part holds: tenths of a per mille, or km/h and whether its end is delayed."""
    if name == "gradient":
        return None if values["grad"] is None else round(values["grad"])
    delayed = values.get("delayed")
    return None if values["speed"] is None else (math.floor(values["speed"]), delayed is None or bool(delayed))


def areas(mapping: Mapping, part: Part, found: Areas) -> None:
    """Areas with a start and an end."""
    for line, _, values in changes(mapping, part):
        start, end = down(values["start"]), values["end"]
        if start is None and end is None:
            continue
        if start is None or end is None or end <= start:
            mapping.findings.fault(part.table.at(line), f"an area from {start} to {end} cm", "an end past its start")
        else:
            found.add(start, math.ceil(end))


def listed(mapping: Mapping, events: Events, track: RecordedTrack, readings: list[SourcedReading]) -> None:
    """All parts but readings and packets."""
    for part in mapping.parts.get("authority", []):
        authorities(mapping, part, events)
    for part in mapping.parts.get("restriction", []):
        restrictions(mapping, part, events)
    for name, known in (("gradient", track.gradient), ("speed", track.speed)):
        for part in mapping.parts.get(name, []):
            profile(mapping, part, known, readings)
    for name, found in (("adhesion", track.adhesion), ("no_special", track.no_special)):
        for part in mapping.parts.get(name, []):
            areas(mapping, part, found)
