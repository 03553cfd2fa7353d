"""The lower panel: state, status and commands, a strip each.

The strips lie over time and not over place, since a train that stands has many readings at one place. The labels of
their axis tell both.
"""

from sdm.drawing import certificate, display
from sdm.drawing.values import DrawnJourney, DrawnReading
from sdm.drawing.sheet import BLACK, COMMAND, COVERED, GREY, LEFT, SMALL, STATES, STATUSES, STRIP, TARGETS, WHITE
from sdm.drawing.sheet import Shade, Sheet, block, rgb, seconds

STRIPS: dict[str, tuple[str, dict[str, Shade] | None]] = {
    # column of the row: name, how its values are shown
    "state": ("state", STATES),
    "status": ("status", STATUSES),
    "tco": ("traction cut-off", COMMAND),
    "sb": ("service brake", COMMAND),
    "eb": ("emergency brake", COMMAND),
    "covered": ("covered", COVERED),
    "zone": ("own speed", display.ZONES),
    "counts": ("target of P", None),
    "target": ("shown target", None),
    "holds": ("holds", certificate.ANSWERS),
    "differs": ("not the model's", None),
}

# What stands beside the strips of a column: letters with their shades.
KEYS = {"status": list((STATES | STATUSES).items()), "zone": [("", shade) for shade in display.ZONES.values()]}

# Labels of the time axis are at least so many pixels apart; a letter needs a run of at least so many; a line of the key
# is at least so high.
APART, ROOM, LEAST_STEP = 50, 12, 13


def height_of(journey: DrawnJourney, sheet: Sheet) -> int:
    """The upper edge of the panel in pixels."""
    return sheet.foot + STRIP * len(columns_of(journey))


def columns_of(journey: DrawnJourney) -> list[str]:
    """The columns of the rows that have a strip, from top to bottom."""
    return [column for column in STRIPS if any(value_of(reading, column) for reading in journey.readings)]


def value_of(reading: DrawnReading, column: str) -> str:
    """What a reading has in a strip: a value of its row, the target that its permitted limit is of, whether the model's
    row differs; of `display` where its speed lies, and the target that is shown."""
    if column in ("zone", "target"):
        return {"zone": display.zone_of, "target": display.target_of}[column](reading) if reading.shown else ""
    held = {"counts": reading.counts, "differs": reading.differs}
    return held[column] if column in held else reading.row.get(column, "")


def shade_of(column: str, value: str) -> Shade | None:
    """How a value is shown; nothing where it isn't."""
    if column in ("counts", "target"):
        return Shade(TARGETS.get(value.split(" ")[0], WHITE), BLACK, value) if value else None
    if column == "differs":
        return Shade("#CC0000", WHITE, value) if value else None
    if column == "covered" and value == "R":
        return Shade("#EEEEEE", BLACK, "none is promised")
    return (STRIPS[column][1] or {}).get(value)


def strip_panel(journey: DrawnJourney, sheet: Sheet) -> list[str]:
    """The panel's part of the script."""
    readings, columns, edge = journey.readings, columns_of(journey), height_of(journey, sheet)
    end, unit = end_of(readings), "km" if journey.is_long else "m"
    boxes, letters = strip_lines(readings, columns, end, sheet.right - LEFT)
    tics = tics_of(journey, end, sheet.right - LEFT)
    names = ", ".join(f'"{STRIPS[column][0]}" {len(columns) - k - 0.5}' for k, column in enumerate(columns))
    lines = [
        "unset arrow; unset label; unset grid; unset xlabel; unset ylabel; unset key; set format x",
        *sheet.frame(sheet.foot, edge),
    ]
    lines += [line for column, shades in KEYS.items() if column in columns for line in key_of(sheet, edge, shades)]
    lines += block("boxes", boxes) + block("letters", letters)
    lines += [
        f"set xrange [{readings[0].time:.1f}:{end:.3f}]; set yrange [0:{len(columns)}]",
        f"set ytics scale 0 {SMALL} ({names}); set xtics out scale 0.5 {SMALL} ({tics})",
        sheet.label(f"time (s)\\nfront end ({unit})", LEFT - 32, sheet.foot - 20, "right " + SMALL),
    ]
    series = ["$boxes using 1:2:3:4:5:6:7 with boxxyerror fs solid noborder lc rgb variable notitle"] if boxes else []
    series += ["$letters using 1:2:3:4 with labels font ',10' tc rgb variable notitle"] if letters else []
    return lines + ["plot " + ", ".join(series or ["-1 notitle"])]


def end_of(readings: list[DrawnReading]) -> float:
    """The time up to which the last reading is shown. No reading follows it, so that this is a stub."""
    times = [r.time for r in readings]
    between = [after - before for before, after in zip(times, times[1:]) if after > before]
    return times[-1] + max(min(between, default=1), 0.04 * (times[-1] - times[0]))


def runs_of(readings: list[DrawnReading], column: str, end: float) -> list[tuple[float, float, str]]:
    """The runs of readings with one value of a column: since when, until when, the value."""
    runs: list[tuple[float, str]] = []
    for reading in readings:
        value = value_of(reading, column)
        if column == "covered" and reading.release is not None:
            value = "R"
        if not runs or runs[-1][1] != value:
            runs.append((reading.time, value))
    ends = [since for since, _ in runs[1:]] + [end]
    return [(since, until, value) for (since, value), until in zip(runs, ends)]


def strip_lines(
    readings: list[DrawnReading], columns: list[str], end: float, width: int
) -> tuple[list[str], list[str]]:
    """The rectangles of the strips, and the letters that have room in them."""
    boxes, letters = [], []
    scale = width / (end - readings[0].time)
    for k, column in enumerate(columns):
        y = len(columns) - k - 0.5
        for since, until, value in runs_of(readings, column, end):
            shade = shade_of(column, value)
            if shade is None:
                continue
            boxes.append(f"{since:.1f} {y} {since:.1f} {until:.3f} {y - 0.4:.1f} {y + 0.4:.1f} {rgb(shade.colour)}")
            text = shade.name if column in ("covered", "zone") else value
            if text and shade.name and (until - since) * scale > max(ROOM, 6 * len(text)):
                letters.append(f'{(since + until) / 2:.3f} {y} "{text}" {rgb(shade.ink)}')
    return boxes, letters


def tics_of(journey: DrawnJourney, end: float, width: int) -> str:
    """Labels of the time axis at readings: the time, and below it the place of the front end."""
    readings = journey.readings
    apart = APART * (end - readings[0].time) / width
    step = round_step(readings, apart)
    shown = readings[:1]
    for reading in readings:
        if reading.time - shown[-1].time >= apart and tenths(reading) // step > tenths(shown[-1]) // step:
            shown.append(reading)
    places = [f"{r.front / 1000:.1f}" if journey.is_long else f"{r.front:.0f}" for r in shown]
    return ", ".join(f'"{seconds(r.time)}\\n{place}" {r.time:.1f}' for r, place in zip(shown, places))


def tenths(reading: DrawnReading) -> int:
    """The time of a reading in tenths of a second."""
    return round(reading.time * 10)


def round_step(readings: list[DrawnReading], apart: float) -> int:
    """The round step in tenths, of at least so many seconds, most of whose multiples have a reading; 1 where none is
    such."""
    times = {tenths(reading) for reading in readings}
    first, last, best, share = min(times), max(times), 1, 0.5
    for step in (digit * 10**power for power in range(8) for digit in (1, 2, 5)):
        multiples = range(first + -first % step, last + 1, step)
        if step >= 10 * apart and len(multiples) >= 4:
            now = sum(time in times for time in multiples) / len(multiples)
            best, share = (step, now) if now > share else (best, share)
    return best


def key_of(sheet: Sheet, edge: int, shades: list[tuple[str, Shade]]) -> list[str]:
    """What the letters of the strips, and the colours of the train's marks, are."""
    lines = []
    for k, (letter, shade) in enumerate(shades, 1):
        y = edge + 2 - k * max((edge - sheet.foot) / len(shades), LEAST_STEP)
        box = f"from {sheet.spot(sheet.right + 14, y)} to {sheet.spot(sheet.right + 28, y + 10)}"
        lines.append(f"set object rectangle {box} fs solid border lc rgb '{GREY}' fc rgb '{shade.colour}'")
        lines.append(
            sheet.label(f"{letter}  {shade.name}".strip(), sheet.right + 34, y + 5, f"left {SMALL} tc rgb '{BLACK}'")
        )
    return lines
