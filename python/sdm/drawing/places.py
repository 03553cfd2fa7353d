"""The upper panel: speed over place, as the figures of SUBSET-026-3 3.13 show it, and the strip of the track below it.

Each series has a dash and a mark of its own beside its colour. A mark of the train has the colour of its status, so
that the upper panel and the strips are read together.
"""

import math
from collections.abc import Iterable

from sdm.exact import NOTCHES_PER_KM_H, dV_ebi, dV_sbi, dV_warning

from sdm.drawing import certificate, display
from sdm.drawing.journey import CM_PER_M, highest, steps
from sdm.drawing.labels import fields_of, label_lines, placed, wanted_labels
from sdm.drawing.sheet import (
    BLACK,
    COMMAND,
    GREY,
    LEFT,
    LEVEL,
    PALE,
    SMALL,
    STATUSES,
    STRIP,
    WHITE,
    Shade,
    Sheet,
    block,
    rgb,
)
from sdm.drawing.track import track_rows, track_strip
from sdm.drawing.values import DrawnJourney, Polyline, DrawnReading, SeriesData, Span
from sdm.drawing.view import LINE, MARK, MOST_MARKS, View, changes

# Limits and targets farther from the train than this many m, or than twice the distance that it runs, are left out.
LEAST_REACH = 5000
LEAST_WIDTH = 100

LIMITS = {
    # limit: name, colour, dash, mark
    "ebi": ("EBI", "#D55E00", "solid", 4),
    "sbi": ("SBI", BLACK, "(7,4)", 12),
    "warning": ("warning", "#E69F00", "(10,4,2,4)", 8),
    "permitted": ("permitted", "#0072B2", "(2,3)", 10),
    "indication": ("indication", "#009E73", "(10,4,2,4,2,4)", 2),
}


# The curves on which the limits stand: name, colour.
CURVES = {"EBD": ("EBD", "#D55E00"), "SBD": ("SBD", "#777777")}
# The limits that are speeds over the ceiling as well.
MARGINS = {"ebi": dV_ebi, "sbi": dV_sbi, "warning": dV_warning}
# The train itself, where it is known beside its readings.
TRUE = "lines lw 2.4 lc rgb '#CC79A7'"
COMMANDS = ("tco", "sb", "eb")
MOST_CHANGES = 24  # of commands, that are named


def place_panel(
    journey: DrawnJourney, sheet: Sheet, low_edge: int, places: Span | None = None, speeds: Span | None = None
) -> list[str]:
    """The panel's part of the script, above a height; for places and speeds of its own where they are given."""
    low, high = places or reach_of(journey)
    track = track_strip(journey, sheet, low, high, low_edge)
    low_edge += STRIP * len(track_rows(journey, low, high))
    labels = placed(wanted_labels(journey, sheet, low, high), sheet.width)
    high_edge = sheet.top - LEVEL * (1 + max((at.level for at in labels), default=0))
    bottom, top = speeds or (0, highest(journey.readings))
    view = View(low, high, bottom, top, sheet.right - LEFT, high_edge - low_edge)
    data = within_speeds(series_data(journey, view), top)
    lines = [line for name in data for line in block(name, data[name])]
    lines += sheet.words() + sheet.frame(low_edge, high_edge) + end_lines(journey)
    lines += label_lines(labels, sheet, high_edge) + change_lines(journey, (high - low) / view.width)
    lines += [
        f"set xrange [{low:.3f}:{high:.3f}]; set yrange [{bottom:.3f}:{top:.3f}]",
        "set ylabel 'speed (km/h)' offset 0.5,0"
        + ("; set format x ''" if track else f"; set xlabel 'place ({'km' if journey.is_long else 'm'})' offset 0,0.4"),
        *([kilometres(low, high, not track)] if journey.is_long else []),
        f"set grid lc rgb '{PALE}' lt 1 lw 0.6",
        f"set key at {sheet.spot(sheet.right + 10, high_edge - 2)} left top Left reverse samplen 3.2 spacing 1.2 "
        + SMALL,
    ]
    series = drawn_series(data, len(journey.readings)) + key_of(data, train_of(journey))
    return lines + ["plot " + ", ".join(series)] + with_kilometres(track, journey, low, high)


def kilometres(low: float, high: float, is_named: bool) -> str:
    """The marks of the axis of places, at whole kilometres."""
    step = next(km for km in (1, 2, 5, 10, 20, 50, 100) if (high - low) / 1000 / km <= 14)
    whole = range(math.ceil(low / 1000 / step) * step, math.floor(high / 1000) + 1, step)
    return "set xtics (" + ", ".join(f'"{km if is_named else ""}" {1000 * km}' for km in whole) + ")"


def with_kilometres(track: list[str], journey: DrawnJourney, low: float, high: float) -> list[str]:
    """The strip of the track, which has the axis of places where it is there."""
    if not (track and journey.is_long):
        return track
    lines = [line.replace("place (m)", "place (km)") for line in track]
    return [*lines[:-1], kilometres(low, high, True), lines[-1]]


# ---- the places that are shown


def reach_of(journey: DrawnJourney) -> Span:
    """The places from and to which the picture reaches."""
    readings = journey.readings
    low, high = min(r.least for r in readings), max(r.most for r in readings)
    reach = max(LEAST_REACH, 2 * (high - low))
    places = [low, high] + [p for r in readings for p in r.limits.values()] + [t.what.place for t in journey.ends]
    places += [cm / CM_PER_M for held in journey.restrictions for cm in (held.what.start, held.what.end)]
    near = [p for p in places if low - reach <= p <= high + reach]
    width = max(near) - min(near)
    margin = max(0.03 * width, (LEAST_WIDTH - width) / 2)
    return min(near) - margin, max(near) + margin


# ---- upright lines


def end_lines(journey: DrawnJourney) -> list[str]:
    """The ends of authorities, as upright lines: dashed where another authority has taken their place."""
    lines = []
    for held in journey.ends:
        style = "lw 1.6" if held.until == len(journey.readings) else "lw 1 dt (6,4)"
        colour = "#56B4E9" if held.what.name == "start of R" else BLACK
        x = f"{held.what.place:.3f}"
        lines.append(f"set arrow from {x},graph 0 to {x},graph 1 nohead {style} lc rgb '{colour}' back")
    return lines


def changes_of(journey: DrawnJourney, near: float) -> list[tuple[float, list[str]]]:
    """Where commands come and go: places in m and what changes there, those as near as a label's height together."""
    last: dict[str, bool] = {}
    changes: list[tuple[float, list[str]]] = []
    obeyed = ("eb",) if journey.true else COMMANDS
    for reading in journey.readings:
        now = {name: reading.row[name] == "1" for name in obeyed if name in reading.row}
        words = [f"{'+' if now[name] else '-'}{name}" for name in now if now[name] != last.get(name, False)]
        last = now
        if words and changes and abs(reading.front - changes[-1][0]) < near:
            changes[-1][1].extend(words)
        elif words:
            changes.append((reading.front, words))
    return changes


def change_lines(journey: DrawnJourney, scale: float) -> list[str]:
    """A thin upright line where commands come and go, with their names; `scale` is the way of a pixel."""
    lines, changes = [], changes_of(journey, 13 * scale)
    for front, words in changes:
        x = f"{front:.3f}"
        lines.append(f"set arrow from {x},graph 0 to {x},graph 1 nohead lw 0.7 dt (1,3) lc rgb '#444444' back")
        if len(changes) <= MOST_CHANGES:
            lines.append(
                f'set label "{" ".join(words)}" at {x},graph 0.02 left rotate by 90 offset -0.5,0 '
                "font ',9' tc rgb '#444444' front"
            )
    return lines


# ---- the data of the series


def series_data(journey: DrawnJourney, view: View) -> SeriesData:
    """The data of each series that the panel has, by name."""
    readings, differ = journey.readings, any(r.front < r.most for r in journey.readings)
    is_thinned = len(readings) > MOST_MARKS
    at = lambda r: (r.front, r.speed)
    line = view.thinned(readings, at, LINE, colour_of) if is_thinned else readings
    marks = view.thinned(readings, at, MARK, colour_of) if is_thinned else readings
    held = [r for r in readings if "ceiling" in r.row]
    held = changes(held, "ceiling") if is_thinned else held
    data = {
        "restrictions": restriction_lines(journey, view.low, view.high),
        "ceiling": [f"{r.front:.3f} {r.row['ceiling']}" for r in held],
        "release": broken_lines((r.front, r.release) for r in readings),
        "profile": profile_lines(journey, view.low, view.high),
        "trace": [f"{r.front:.3f} {r.speed:.4f}" for r in line],
        "train": [f"{r.front:.3f} {r.speed:.4f} {rgb(colour_of(r))}" for r in marks],
    }
    if not journey.is_long:
        data["most"] = [f"{r.most:.3f} {r.speed:.4f}" for r in line if not journey.true and differ]
        data["bars"] = [f"{r.least:.3f} {r.speed:.4f} {r.most - r.least:.3f}" for r in marks if r.least < r.most]
    data["true"] = [f"{place:.3f} {kmh:.4f}" for place, kmh in journey.true]
    data |= display.series_data(line) | certificate.series_data(journey)
    for limit, margin in ({} if journey.is_long else MARGINS).items():
        over = [(r.front, int(r.row["ceiling"])) for r in held]
        data["over_" + limit] = [f"{front:.3f} {M + margin(M) / NOTCHES_PER_KM_H:.4f}" for front, M in over]
    for name in (*CURVES, *LIMITS):
        data["curve_" + name] = curve_lines(journey.curves.get(name, []), view.low, view.high)
    for limit in () if journey.is_long else LIMITS:
        points = [(r.limits.get(limit, math.inf), r.speed) for r in readings]
        points = [point for point in points if view.low <= point[0] <= view.high]
        points = view.thinned(points, lambda point: point, MARK) if is_thinned else points
        data[limit] = [f"{x:.3f} {y:.4f}" for x, y in points]
    return {name: lines for name, lines in data.items() if lines}


def within_speeds(data: SeriesData, top: float) -> SeriesData:
    """The series that have a point below the highest speed of the picture."""
    at = {name: 4 if name == "restrictions" else 1 for name in data}
    lowest = {name: min(float(line.split()[at[name]]) for line in lines if line) for name, lines in data.items()}
    return {name: lines for name, lines in data.items() if lowest[name] < top}


def curve_lines(lines: list[Polyline], low: float, high: float) -> list[str]:
    """The data of whole curves, a break between two, without what lies far from the picture."""
    width = high - low
    found: list[str] = []
    for line in lines:
        points = [f"{x:.3f} {y:.3f}" for x, y in line if low - width <= x <= high + width]
        found += ([""] if found and points else []) + points
    return found


def colour_of(reading: DrawnReading) -> str:
    """The colour of a reading's mark: that of its status, of `display` where its speed lies, of `flat` the emergency
    brake, of `check` the answer."""
    if reading.shown:
        return display.ZONES[display.zone_of(reading)].colour
    row = reading.row
    if "holds" in row:
        return certificate.ANSWERS[row["holds"]].colour
    return STATUSES[row["status"]].colour if "status" in row else COMMAND.get(row["eb"], Shade(WHITE)).colour


def profile_lines(journey: DrawnJourney, low: float, high: float) -> list[str]:
    """The static speed profile, to be drawn in steps."""
    pairs = [(max(cm / CM_PER_M, low), kmh) for cm, kmh in steps(journey.profile) if cm / CM_PER_M < high]
    return [f"{x:.3f} {kmh}" for x, kmh in pairs + [(high, kmh) for _, kmh in pairs[-1:]]]


def restriction_lines(journey: DrawnJourney, low: float, high: float) -> list[str]:
    """The fields of all restrictions."""
    fields = [field for held in journey.restrictions for field in fields_of(held.what, journey.profile, low, high)]
    return [f"{start:.3f} {kmh} {start:.3f} {end:.3f} {speed} {kmh}" for start, end, speed, kmh in fields]


def broken_lines(points: Iterable[tuple[float | None, float | None]]) -> list[str]:
    """The data of points, broken where one has no place or no height."""
    lines = []
    for x, y in points:
        if x is not None and y is not None:
            lines.append(f"{x:.3f} {y:.4f}")
        elif lines and lines[-1]:
            lines.append("")
    return lines


# ---- the series and the key


def mark_size(count: int) -> float:
    """The size of marks: smaller where readings are many."""
    return 0.7 if count <= 60 else 0.4


def limit_style(limit: str) -> str:
    """The line of a limit's curve."""
    _, colour, dash, _ = LIMITS[limit]
    return f"lines lw 1.5 lc rgb '{colour}' dt {dash}"


def mark_style(limit: str, count: int) -> str:
    """The marks of a limit's places in the rows."""
    _, colour, _, mark = LIMITS[limit]
    return f"points lc rgb '{colour}' pt {mark} ps {mark_size(count)}"


def limit_key(limit: str, data: SeriesData) -> str:
    """A limit in the key: its curve, its marks, or both, as they are drawn."""
    mark = f"pt {LIMITS[limit][3]} ps 0.7"
    if limit not in data:
        return limit_style(limit)
    if "curve_" + limit not in data:
        return f"points lc rgb '{LIMITS[limit][1]}' {mark}"
    return f"{limit_style(limit).replace('lines', 'linespoints', 1)} {mark}"


def drawn_series(data: SeriesData, count: int) -> list[str]:
    """The series from back to front."""
    marks = mark_size(count)
    series = [
        ("restrictions", "1:2:3:4:5:6", f"boxxyerror lc rgb '{GREY}' fs solid 0.25 border lc rgb '{GREY}'"),
        ("ceiling", "1:2", "steps lw 4 lc rgb '#BBBBBB'"),
        *(
            ("over_" + limit, "1:2", f"steps lw 0.9 lc rgb '{LIMITS[limit][1]}' dt {LIMITS[limit][2]}")
            for limit in MARGINS
        ),
        ("release", "1:2", "steps lw 4 lc rgb '#56B4E9'"),
        ("profile", "1:2", f"steps lw 1 lc rgb '{BLACK}'"),
        *display.series(),
        *certificate.series(),
        *(("curve_" + name, "1:2", f"lines lw 0.8 lc rgb '{CURVES[name][1]}' dt (2,2)") for name in CURVES),
        *(("curve_" + limit, "1:2", limit_style(limit)) for limit in LIMITS),
        *((limit, "1:2", mark_style(limit, count)) for limit in LIMITS),
        ("most", "1:2", f"lines lw 0.9 lc rgb '{GREY}' dt (4,3)"),
        ("bars", "1:2:3:(0)", f"vectors nohead lw 1 lc rgb '{GREY}'"),
        *([] if "marks" in data else [("trace", "1:2", f"lines lw 1.4 lc rgb '{BLACK}'")]),  # claims are no journey
        ("true", "1:2", TRUE),
        ("train", "1:2", f"points pt 6 ps {1.4 * marks:.2f} lc rgb '{BLACK}'"),
        ("train", "1:2:3", f"points pt 7 ps {1.2 * marks:.2f} lc rgb variable"),
    ]
    return [f"${name} using {using} with {style} notitle" for name, using, style in series if name in data]


def train_of(journey: DrawnJourney) -> str:
    """What the key calls the marks of the train."""
    row = journey.readings[0].row
    return "claim" if "holds" in row else "train, by status" if "status" in row else "train"


def key_of(data: SeriesData, train: str) -> list[str]:
    """The lines of the key from top to bottom."""
    has_margins = any("over_" + limit in data for limit in MARGINS)
    keys = [
        ("train", f"{'points' if train == 'claim' else 'linespoints lw 1.4'} pt 7 ps 0.8 lc rgb '{BLACK}'", train),
        ("true", TRUE, "true train"),
        ("most", f"lines lw 0.9 lc rgb '{GREY}' dt (4,3)", "max safe front end"),
        ("bars", f"lines lw 1 lc rgb '{GREY}'", "safe front ends"),
        *display.keys(),
        *certificate.keys(),
        ("ceiling", "lines lw 4 lc rgb '#BBBBBB'", f"ceiling{', its margins' if has_margins else ''}"),
        ("release", "lines lw 4 lc rgb '#56B4E9'", "release speed"),
        ("profile", f"lines lw 1 lc rgb '{BLACK}'", "static profile"),
        ("restrictions", f"boxes lc rgb '{GREY}' fs solid 0.25 border lc rgb '{GREY}'", "restriction"),
        *(("curve_" + name, f"lines lw 0.8 lc rgb '{CURVES[name][1]}' dt (2,2)", CURVES[name][0]) for name in CURVES),
        *((limit, limit_key(limit, data), LIMITS[limit][0]) for limit in LIMITS),
    ]
    shown = {name.removeprefix("curve_") if name.removeprefix("curve_") in LIMITS else name for name in data}
    return [f"keyentry with {style} title '{title}'" for name, style, title in keys if name in shown]
