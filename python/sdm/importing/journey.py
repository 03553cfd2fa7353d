"""A journey made of a recording: its data part, and its records in the order of their times."""
import tomllib
from dataclasses import astuple, dataclass
from pathlib import Path

from sdm.exact import MOST_CM, MOST_RECORDS, Outcome, Refused, Supervisor, data_of, event_of
from sdm.toml_text import toml
from sdm.records import End, Limit, Record, Restriction

from sdm.importing.events import Event, Events
from sdm.importing.faults import Findings, FieldPlace
from sdm.importing.listed import listed
from sdm.importing.mapping import Mapping, Raw, mapping_of
from sdm.importing.packets import Packets
from sdm.importing.readings import SourcedReading, readings_of
from sdm.importing.times import Times, start_clock
from sdm.importing.track import Entry, RecordedTrack


@dataclass(frozen=True)
class Journey:
    """An input of `sdm run`: its data part and its records, with what the import warns of."""

    data: str
    records: str
    warnings: tuple[str, ...]

    def text(self) -> str:
        """The whole input, as the program takes it."""
        return f"{self.data}%%\n{self.records}"


def journey_of(recording: Path, mapping_file: Path) -> Journey:
    """The journey of a recording by a mapping. Raises ImportFault with all that is wrong."""
    findings = Findings()
    mapping = mapping_of(mapping_file, recording, findings)
    document, where = data_file(mapping)
    findings.end_if_faulty()
    events, track = Events(findings), RecordedTrack(findings)
    readings = read_all(mapping, events, track)
    findings.end_if_faulty()
    complete(document, where, track, events, readings, findings)
    findings.end_if_faulty()
    data = toml(document)
    check(data, events.found, readings, mapping, findings)
    findings.end_if_faulty()
    lines = [record.text() for record in in_order(events.found, readings)]
    return Journey(data, "".join(lines), tuple(map(str, findings.warnings)))


def read_all(mapping: Mapping, events: Events, track: RecordedTrack) -> list[SourcedReading]:
    """The readings; events and track get what the other parts say. Packets come first: they place balise groups."""
    reading = mapping.parts["reading"][0]
    start_clock(mapping, reading)
    packets, first = mapping.one("packets"), reading.table.lines[:1]
    if packets is not None:
        first_time = Times(mapping, reading).of(first[0]) if first else None
        Packets(mapping, packets, events, track, first_time or 0).read()
    readings = readings_of(mapping, reading, mapping.groups)
    listed(mapping, events, track, readings)
    events.found.sort(key=lambda each: each.time)
    if not readings and not mapping.findings.faults:
        mapping.findings.fault(FieldPlace(mapping.recording.name), "no reading", "at least one line")
    return readings


def data_file(mapping: Mapping) -> tuple[Raw, FieldPlace]:
    """The data part that the mapping names, which may lack what packets and columns say."""
    findings = mapping.findings
    if mapping.data is None:
        findings.fault(mapping.place("import"), "no key `data`", "the file with the train and the national values")
        return {}, FieldPlace("")
    where = FieldPlace(mapping.data.name)
    try:
        document = tomllib.loads(mapping.data.read_bytes().decode("utf-8-sig"))
    except OSError as why:
        findings.fault(where, why.strerror, "a file that can be read")
        return {}, where
    except ValueError as why:
        findings.fault(where, str(why), "TOML")
        return {}, where
    if document.setdefault("version", 2) != 2:
        findings.fault(where, f"version {document['version']}", "version 2, which `sdm upgrade` makes of version 1")
    for key in ("train", "national"):
        if key not in document:
            findings.fault(where, f"no table `{key}`", "it, as docs/FORMATS.md has it")
    if not isinstance(document.setdefault("track", {}), dict):
        findings.fault(where, repr(document["track"]), "a table `track`")
    return document, where


def complete(
    document: Raw,
    where: FieldPlace,
    track: RecordedTrack,
    events: Events,
    readings: list[SourcedReading],
    findings: Findings,
) -> None:
    """Puts the authority and the track into the data part."""
    if "authority" not in document:
        opening(document, where, events, readings[0].reading.time_ds, findings)
    given = document["track"]
    try:
        gradients: list[Entry] = [(each["start"], each["grad"]) for each in given.get("gradient", [])]
        speeds: list[Entry] = [
            (each["start"], (each["speed"], each.get("delayed", True))) for each in given.get("speed", [])
        ]
        for areas in (track.adhesion, track.no_special):
            areas.found += [(each["start"], each["end"]) for each in given.get(areas.name, [])]
    except (KeyError, TypeError, AttributeError):
        findings.fault(where, "lists of `track` of another form", "tables with the keys of docs/FORMATS.md")
        return
    gradients, speeds = track.gradient.entries(gradients, where), track.speed.entries(speeds, where)
    if not speeds:
        findings.fault(where, "no speeds", "[[track.speed]], or packets 27, or the part `speed` of the mapping")
    lists: Raw = {
        "gradient": [{"start": start, "grad": grad} for start, grad in gradients],
        "speed": [{"start": start, "speed": speed, "delayed": late} for start, (speed, late) in speeds],
        "adhesion": [{"start": start, "end": end} for start, end in track.adhesion.merged()],
        "no_special": [{"start": start, "end": end} for start, end in track.no_special.merged()],
    }
    lists = {name: entries for name, entries in lists.items() if entries}
    document["track"] = {"length": 0, **given, **lists}
    if "length" not in given:
        document["track"]["length"] = track_length(document, track, events, where, findings)


def opening(document: Raw, where: FieldPlace, events: Events, first: int, findings: Findings) -> None:
    """The first authority becomes that of the data part; it must be there when the first reading comes."""
    of_authority = [
        each for each in events.found if isinstance(each.record, (End, Limit)) or is_calculated(each.record)
    ]
    if not of_authority or of_authority[0].time > first:
        found = "no authority up to the first reading"
        findings.fault(where, found, "[authority], or a packet 12 or 15, or the part `authority` of the mapping")
        return
    record = of_authority[0].record
    if isinstance(record, Limit):
        document["authority"] = {"kind": "limit", "loa": record.loa_cm, "speed": record.speed_kmh}
    else:
        release = record.release_kmh if isinstance(record, End) else 0
        eoa, svl = astuple(record)[:2]
        document["authority"] = {"kind": "end", "eoa": eoa, "svl": svl, "release": release}
    if not is_calculated(record):  # its release speed needs the record, too
        events.found.remove(of_authority[0])


def is_calculated(record: Record) -> bool:
    return record.kind == "endcalc"


def track_length(document: Raw, track: RecordedTrack, events: Events, where: FieldPlace, findings: Findings) -> int:
    """The track's length: up to the farthest place that is named."""
    authority = document.get("authority", {})
    ends: list[int] = [authority.get("svl", 0), authority.get("loa", 0)]
    for event in events.found:
        ends += [getattr(event.record, name, 0) for name in ("svl_cm", "loa_cm", "end_cm")]
    described = track.end()
    if described is not None and described < max(ends):
        text = f"described up to {described:,} cm, with an end at {max(ends):,} cm: the last entries go on"
        findings.warn(where, text)
    data_track = document["track"]
    for name in ("gradient", "speed"):
        ends += [each["start"] + 1 for each in data_track.get(name, [])]
    for name in ("adhesion", "no_special"):
        ends += [each["end"] for each in data_track.get(name, [])]
    if max(ends) > MOST_CM:
        findings.fault(where, f"a track of {max(ends):,} cm", f"at most {MOST_CM:,} cm; cut the journey")
    return max(ends)


def in_order(events: list[Event], readings: list[SourcedReading]) -> list[Record]:
    """All records: those of a time before the first reading that isn't earlier."""
    records: list[Record] = []
    rest = list(events)
    for each in readings:
        while rest and rest[0].time <= each.reading.time_ds:
            records.append(rest.pop(0).record)
        records.append(each.reading)
    return records


def check(data: str, events: list[Event], readings: list[SourcedReading], mapping: Mapping, findings: Findings) -> None:
    """What the program would refuse: the data part, the opening, and records that aren't readings."""
    where = FieldPlace(mapping.data.name if mapping.data else "")
    late = [each for each in events if each.time > readings[-1].reading.time_ds]
    if late:
        findings.warn(late[0].at, f"{len(late)} records after the last reading are left out")
    if len(events) - len(late) + len(readings) > MOST_RECORDS:
        findings.fault(
            FieldPlace(mapping.recording.name), f"{len(readings):,} readings", f"at most {MOST_RECORDS:,} records"
        )
    try:
        supervisor = Supervisor(data_of(tomllib.loads(data)))
    except Outcome as outcome:
        findings.fault(where, outcome.line, "a data part as docs/FORMATS.md has it")
        return
    except Refused as refused:
        findings.fault(where, f"data that are refused: {refused}", "an opening as docs/PROFILE.md has it")
        return
    for event in events:
        try:
            supervisor.take(event_of(event.record.text().strip().encode().split(b",")))
        except Refused as refused:
            findings.fault(
                event.at, f"{event.record.text().strip()}, which is refused: {refused}", rule_of(event.record)
            )


def rule_of(record: Record) -> str:
    """What a record must keep to, in a few words."""
    if isinstance(record, Restriction):
        return "at most 32 restrictions at a time, each within the track"
    return "an end within the track, `track.length` of the data file"
