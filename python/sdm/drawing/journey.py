"""A journey of `sdm` as a picture shows it: its readings with their rows, what was in force, and the curves that
counted.

The input is read by tools/model, and the curves are the model's; the rows are those that are handed in. Units change
here: a reading has m, km/h and s; zones keep the track's cm, so that their borders are whole numbers.
"""

import collections
import math
import re
from collections.abc import Callable, Iterator, Sequence
from fractions import Fraction

from sdm.laboratory.events import events_of
from sdm.laboratory.program import Fault
from sdm.laboratory.rows import LIMITS, UNITS, RowTexts, rows_of
from sdm.laboratory.texts import short
from sdm.laboratory.walk import Walk, at_speed
from sdm import exact
from sdm.exact import (
    Area,
    Authority,
    Brake,
    BrakeCurve,
    Cycle,
    Data,
    Event,
    GRAINS_PER_CM,
    GRAINS_PER_MM,
    Limit,
    NOTCHES_PER_KM_H,
    Outcome,
    Refused,
    Situation,
    Stop,
    Supervisor,
    Target,
    Zone,
    display_of,
    numbers_of,
    open_run,
    restriction_zone,
    static_zones,
)

from sdm.drawing import display
from sdm.drawing.overview import braking_curves, near_ends
from sdm.drawing.values import T, DrawnEnd, Held, DrawnJourney, Polyline, DrawnReading, Span, Window

WalkedReading = tuple[exact.Reading, Cycle | None]  # None where the row isn't looked at
CM_PER_M, GRAINS_PER_M, TENTHS = 100, 1000 * GRAINS_PER_MM, 10  # TENTHS of a per mille, the model's unit of gradients
FIELDS = dict(zip(LIMITS, "d_EBI d_SBI d_W d_P d_I".split()))  # the model's names
# What a column is called in a picture, where that is another word.
NAMES = {"ebi": "EBI", "sbi": "SBI", "warning": "W", "permitted": "P", "indication": "I"}
FLAT_ROW = re.compile(r"\d+,-?\d+,[01],[01]", re.ASCII)


def steps(zones: list[Zone]) -> list[tuple[float, int]]:
    """The lowest speed of all zones along the track, as pairs: from which cm on, and km/h."""
    borders = sorted({z.start for z in zones} | {z.end for z in zones if z.end < math.inf})
    return [(b, min(z.speed for z in zones if z.start <= b < z.end)) for b in borders]


def highest(readings: list[DrawnReading]) -> float:
    """The greatest speed that the picture has room for, in km/h: what the train comes to, with the ceilings near it, or
    the speeds that are shown."""
    fastest, tops = max(r.speed for r in readings), [int(r.row["ceiling"]) for r in readings if "ceiling" in r.row]
    tops += [kmh for r in readings for kmh in r.shown.values()]
    return max([1.3 * fastest, 10, *(1.12 * top for top in tops if top <= 1.6 * fastest)])


def reading_of(n: int, event: exact.Reading, row: RowTexts) -> DrawnReading:
    """A reading with its row."""
    if int(row["time"]) != event.time:
        raise Fault(
            f"The rows are not those of the input: row {n} has the time {row['time']}, its reading {event.time}."
        )
    front, least, most = (getattr(event, which) / 1000 for which in ("est", "min", "max"))
    return DrawnReading(event.time / 10, front, least, most, float(event.speed) * 0.0036, row, {})


def counted(rows: Sequence[object], readings: int, fault: str) -> None:
    """Refuses rows that are not as many as the readings."""
    if len(rows) != readings:
        end = f" before {fault}" if fault else ""
        raise Fault(f"The rows are not those of the input: {len(rows)} rows, {readings} readings{end}.")
    if not rows:
        raise Fault("The journey has no readings.")


# ---- a journey of `run` or `display`


class Course:
    """Goes through the records of an input, and keeps what counts at each reading; those of some numbers, counted from
    1, are worked out."""

    def __init__(self, source: bytes, judged: range) -> None:
        self.walk, self.judged = Walk(source, judged), judged
        self.supervisor = self.walk.supervisor
        self.readings: list[WalkedReading] = []
        self.authorities = [Held(self.supervisor.authority, 0)]
        self.restrictions: list[Held[Zone]] = []
        self.in_force: dict[int, Held[Zone]] = {}
        for event, cycle in self.walk:
            self.take(event, cycle)

    def take(self, event: Event, cycle: Cycle | None) -> None:
        now = len(self.readings)
        if isinstance(event, exact.Reading):
            self.readings.append((event, cycle))
        elif self.supervisor.authority is not self.authorities[-1].what:
            self.authorities[-1].until = now
            self.authorities.append(Held(self.supervisor.authority, now))
        elif isinstance(event, exact.Restriction):
            self.in_force[event.identity] = Held(restriction_zone(self.supervisor.data, event), now)
            self.restrictions.append(self.in_force[event.identity])
        elif isinstance(event, exact.Revocation):
            self.in_force.pop(event.identity).until = now


def window_of(source: bytes, rows: list[RowTexts], window: Window) -> range:
    """The numbers of the readings that a window shows, from the first to the last of them."""
    shown = [n for n, row in enumerate(rows, 1) if window.has(int(row["time"]) / 10)]
    if not shown and rows:
        raise Fault("No reading lies within these times.")
    if window.places and shown:
        low, high = (1000 * place for place in window.places)
        near = set()
        try:
            walked = (event for event in events_of(open_run(source)[1]) if isinstance(event, exact.Reading))
            near = {n for n, reading in enumerate(walked, 1) if reading.min <= high and reading.max >= low}
        except Outcome as outcome:
            raise Fault(f"The input has no rows: {outcome.line}.") from None
        except Refused:
            pass  # the journey is drawn up to there
        shown = [n for n in shown if n in near] or shown
    return range(shown[0], shown[-1] + 1) if shown else range(1, 2)


def run_journey(source: bytes, text: str, window: Window) -> DrawnJourney:
    """The journey of an input of `run` and its rows."""
    rows = rows_of(text)
    course = Course(source, window_of(source, rows, window))
    readings = readings_of(course, rows, lambda cycle: cycle.row.text())
    for reading, (_, cycle) in zip(readings, course.readings):
        if cycle is not None:
            reading.limits = {name: int(reading.row[name]) / 1000 for name in LIMITS if reading.row[name] != "-"}
            reading.counts = counts_of(cycle.situation)
            if cycle.situation.in_release and isinstance(cycle.situation.authority, Stop):
                reading.release = cycle.situation.authority.release
    journey, counting = part_of(course, readings)
    if journey.is_long:
        journey.ends = near_ends(journey)
        journey.curves = braking_curves(course.supervisor, counting, highest(journey.readings))
    else:
        journey.curves = curves_of(course.supervisor, counting, highest(journey.readings))
    return journey


def display_journey(source: bytes, text: str, window: Window) -> DrawnJourney:
    """The journey of an input of `display` and its lines."""
    rows = display.rows_of(text)
    course = Course(source, window_of(source, rows, window))
    text_of = lambda cycle: display_of(course.supervisor, cycle.situation).text()
    readings = readings_of(course, rows, text_of)
    for reading in readings:
        reading.shown = display.speeds_of(reading.row)
    journey, _ = part_of(course, readings)
    if journey.is_long:
        journey.ends = near_ends(journey)
    return journey


def readings_of(course: Course, rows: list[RowTexts], text_of: Callable[[Cycle], str]) -> list[DrawnReading]:
    """The readings of an input with their rows; of those that are worked out, the columns that the model has
    otherwise."""
    counted(rows, len(course.readings), course.walk.fault)
    readings = []
    for n, ((event, cycle), row) in enumerate(zip(course.readings, rows), 1):
        readings.append(reading_of(n, event, row))
        if cycle is not None and (due := text_of(cycle).rstrip("\n")) != ",".join(row.values()):
            readings[-1].otherwise = otherwise_of(row, dict(zip(row, due.split(","))))
            readings[-1].differs = " ".join(NAMES.get(name, name) for name, _ in readings[-1].otherwise)
    return readings


def otherwise_of(row: RowTexts, due: RowTexts) -> list[tuple[str, str]]:
    """The columns that a row has otherwise than the model, and what is told of each."""
    found = []
    for name in row:
        if row[name] != due[name]:
            text = f"{NAMES.get(name, name)} {row[name]}, the model's {due[name]}"
            if name in UNITS and "-" not in (row[name], due[name]):
                more = int(row[name]) - int(due[name])
                text += f" ({abs(more):,} {UNITS[name]} {'more' if more > 0 else 'less'})"
            found.append((name, text))
    return found


def part_of(course: Course, readings: list[DrawnReading]) -> tuple[DrawnJourney, list[WalkedReading]]:
    """The journey, up to a record that is refused, of those readings alone that are worked out; and their events and
    cycles."""
    first, last = course.judged.start - 1, min(course.judged.stop - 1, len(readings))
    differ = [(n, reading) for n, reading in enumerate(readings, 1) if reading.otherwise]
    numbers = ", ".join(str(n) for n, _ in differ[:10])
    note = f"rows that the model has otherwise: {numbers}{' ...' if differ[10:] else ''}" if differ else ""
    ends = ends_held(seen(course.authorities, len(readings))) + release_starts(course.readings)
    restrictions = within(seen(course.restrictions, len(readings)), first, last)
    journey = DrawnJourney(
        readings[first:last], within(seen(ends, len(readings)), first, last), restrictions, note=note
    )
    journey.notes = [
        f"row {n} at {reading.time:g} s: " + "; ".join(text for _, text in reading.otherwise) for n, reading in differ
    ]
    return with_track(journey, course.supervisor.data), course.readings[first:last]


def with_track(journey: DrawnJourney, data: Data) -> DrawnJourney:
    """The journey with what the data part tells of the track."""
    train = Zone(data.train.max_speed, -math.inf, math.inf)
    journey.profile = [train, *static_zones(data)]
    starts = [entry.start / CM_PER_M for entry in data.track.gradient]
    per_mille = [entry.grad / TENTHS for entry in data.track.gradient]
    journey.gradients = list(zip([-math.inf, *starts[1:]], [*starts[1:], math.inf], per_mille))
    journey.adhesion, journey.no_special = in_metres(data.track.adhesion), in_metres(data.track.no_special)
    return journey


def in_metres(areas: Sequence[Area]) -> list[Span]:
    """Areas from m to m."""
    return [(area.start / CM_PER_M, area.end / CM_PER_M) for area in areas]


def counts_of(situation: Situation) -> str:
    """The target that the least permitted limit is of."""
    V = situation.reading.V_est
    slower = [each for each in situation.targets if each.target.V_target * NOTCHES_PER_KM_H <= V]
    least = min(slower, key=lambda each: each.d_P, default=None)
    return "" if least is None else short(least.target)


def seen(helds: list[Held[T]], count: int) -> list[Held[T]]:
    """Those of what is held that count for one reading at least."""
    for held in helds:
        held.until = min(held.until, count)
    return [held for held in helds if held.since < held.until]


def within(helds: list[Held[T]], first: int, last: int) -> list[Held[T]]:
    """What is held, by the numbers of a part of the readings."""
    part = [Held(held.what, max(held.since - first, 0), min(held.until, last) - first) for held in helds]
    return [held for held in part if held.since < held.until]


def ends_of(authority: Authority) -> tuple[DrawnEnd, ...]:
    """What ends an authority."""
    if isinstance(authority, Limit):
        return (DrawnEnd(f"LOA {authority.speed} km/h", authority.loa / CM_PER_M),)
    return DrawnEnd("EOA", authority.eoa / CM_PER_M), DrawnEnd("SvL", authority.svl / CM_PER_M)


def ends_held(authorities: list[Held[Authority]]) -> list[Held[DrawnEnd]]:
    """The ends of authorities that follow each other, each once for as long as it stands unchanged."""
    ends: list[Held[DrawnEnd]] = []
    last: dict[DrawnEnd, Held[DrawnEnd]] = {}
    for authority in authorities:
        now = {end: last.get(end) or Held(end, authority.since) for end in ends_of(authority.what)}
        ends += [held for end, held in now.items() if end not in last]
        for held in now.values():
            held.until = authority.until
        last = now
    return ends


def release_starts(readings: list[WalkedReading]) -> list[Held[DrawnEnd]]:
    """The starts of release speed monitoring, each for as long as it stands."""
    starts: list[Held[DrawnEnd]] = []
    for n, (_, cycle) in enumerate(readings):
        start = None if cycle is None else cycle.situation.release_start
        end = None if start is None else DrawnEnd("start of R", float(start / GRAINS_PER_M))
        if end and starts and starts[-1].what == end and starts[-1].until == n:
            starts[-1].until = n + 1
        elif end:
            starts.append(Held(end, n, n + 1))
    return starts


# ---- whole curves


def curves_of(supervisor: Supervisor, readings: list[WalkedReading], highest_kmh: float) -> dict[str, list[Polyline]]:
    """EBD, SBD and all limits of each set of targets that counted, over all speeds, as lines of (m, km/h).

    They are those of the acceleration and the under-reading amount that most of the readings with these targets have.
    """
    sets = collections.defaultdict(list)
    for event, cycle in readings:
        if cycle is not None:
            sets[tuple(each.target for each in cycle.situation.targets)].append(event)
    curves: dict[str, list[Polyline]] = collections.defaultdict(list)
    for targets, events in sets.items():
        (accel, under), _ = collections.Counter((event.accel, event.under) for event in events).most_common(1)[0]
        probe = events[0]._replace(accel=accel, under=under)
        for name, line in set_lines(supervisor, targets, probe, highest_kmh):
            if line not in curves[name]:
                curves[name].append(line)
    return curves


def set_lines(
    supervisor: Supervisor, targets: Sequence[Target], probe: exact.Reading, highest_kmh: float
) -> Iterator[tuple[str, Polyline]]:
    """The lines of a set of targets: at each speed the least place, broken where a target or its brake curve begins to
    count."""
    top, foot = math.ceil(highest_kmh), {each: Fraction(each.foot_speed, NOTCHES_PER_KM_H) for each in targets}
    speeds_of_targets = [Fraction(each.V_target) for each in targets] + list(foot.values())
    begins = sorted({Fraction(0), Fraction(top), *(kmh for kmh in speeds_of_targets if kmh < top)})
    for low, high in zip(begins, begins[1:]):
        slower = [each for each in targets if each.V_target <= low]
        braked = [each for each in slower if foot[each] <= low]
        count = max(math.ceil(high - low), 8)
        speeds = [low + (high - low) * Fraction(i, count) for i in range(count + 1)]
        found = [(float(kmh), places_at(supervisor, slower, braked, at_speed(probe, kmh))) for kmh in speeds]
        for name in found[0][1]:
            points = [(place, kmh) for kmh, places in found if (place := places[name]) is not None]
            if points:
                yield name, points


def places_at(
    supervisor: Supervisor, slower: list[Target], braked: list[Target], reading: exact.Reading
) -> dict[str, float | None]:
    """The least place of each limit of the slower targets, and of each curve of those that are braked, at a speed, in
    m."""
    places = collections.defaultdict(list)
    for target in slower:
        each = supervisor.limits(reading, target)
        for name, field_name in FIELDS.items():
            places[name].append(getattr(each, field_name))
    for target in braked:
        curve = supervisor.curves.d_SBD if target.kind == "Eoa" else supervisor.curves.d_EBD
        places["SBD" if target.kind == "Eoa" else "EBD"].append(curve(target.place, target.foot_speed, reading.V_est))
    there = {name: [place for place in places[name] if place is not None] for name in (*FIELDS, "EBD", "SBD")}
    return {name: float(min(found) / GRAINS_PER_M) if found else None for name, found in there.items()}


# ---- a journey of `flat`


def flat_journey(source: bytes, text: str, A: int, END: int, window: Window) -> DrawnJourney:
    """The journey of an input of `flat` for its words, and its rows."""
    lines: list[list[int]] = []
    given = source.split(b"\n")
    for record in given if given[-1] else given[:-1]:
        numbers = numbers_of(record, lines[-1][0] if lines else 0)
        if numbers is None:
            break
        lines.append(numbers)
    rows = []
    for number, line in enumerate(text.splitlines(), 1):
        if not FLAT_ROW.fullmatch(line):
            raise Fault(f"Line {number} of the rows is no row of sdm flat: {line!r}.")
        rows.append(dict(zip(["time", "ebi", "covered", "eb"], line.split(","))))
    counted(rows, len(lines), "")
    readings = []
    for n, ((time, front, speed), row) in enumerate(zip(lines, rows), 1):
        if int(row["time"]) != time:
            raise Fault(f"The rows are not those of the input: row {n} has the time {row['time']}, its line {time}.")
        place = front / 1000
        readings.append(
            DrawnReading(time / 10, place, place, place, speed * 0.0036, row, {"ebi": int(row["ebi"]) / 1000})
        )
    readings = [reading for reading in readings if window.has(reading.time)]
    if not readings:
        raise Fault("No reading lies within these times.")
    curve = BrakeCurve(Brake("flat", 100, (), (), ((A * 2 * 10**9,),)), END * GRAINS_PER_CM, 0, exact=True)
    top = math.ceil(highest(readings))
    points = [(float(curve.place(kmh * NOTCHES_PER_KM_H) / GRAINS_PER_M), float(kmh)) for kmh in range(top + 1)]
    return DrawnJourney(readings, [Held(DrawnEnd("END", END / CM_PER_M), 0, len(readings))], curves={"ebi": [points]})
