"""What a run of `display` adds to a picture: the speeds that a driver is shown, as steps over the places, and strips
that tell where the train's own speed lies among them and which target is shown."""

import re

from sdm.laboratory.rows import RowTexts, lines_of

from sdm.drawing.sheet import BLACK, WHITE, Shade
from sdm.drawing.values import DrawnReading, SeriesData

COLUMNS = ["time", "permitted", "sbi", "ebi", "release", "kind", "distance"]
FORM = re.compile(r"\d+(,\d+){4},(-,-|[MLES],\d+)", re.ASCII)
TARGETS = {"M": "fall", "L": "LOA", "E": "EOA", "S": "SvL"}

SPEEDS = {
    # column: name, style
    "ebi": ("EBI speed", "lw 2 lc rgb '#D55E00'"),
    "sbi": ("SBI speed", f"lw 1.4 lc rgb '{BLACK}' dt (7,4)"),
    "permitted": ("permitted speed", "lw 2 lc rgb '#0072B2'"),
}
# Where the train's own speed lies: the highest speed of those that are shown which it is above.
ZONES = {
    "ebi": Shade("#6B0000", WHITE, "above EBI"),
    "sbi": Shade("#D55E00", WHITE, "above SBI"),
    "permitted": Shade("#E69F00", BLACK, "above permitted"),
    "none": Shade("#EEEEEE", BLACK, "permitted"),
}


def rows_of(text: str) -> list[RowTexts]:
    """The lines of `display`, each as its values by the names of its fields."""
    return [dict(zip(COLUMNS, line[0].split(","))) for line in lines_of(text, FORM, "line of sdm display")]


def speeds_of(row: RowTexts) -> dict[str, int]:
    """The speeds of a line of `display` in km/h, by the columns."""
    return {name: int(row[name]) for name in SPEEDS}


def zone_of(reading: DrawnReading) -> str:
    """Where the train's own speed lies among those that are shown."""
    return next((name for name in SPEEDS if reading.speed > reading.shown[name]), "none")


def target_of(reading: DrawnReading) -> str:
    """The target that is shown."""
    return TARGETS.get(reading.row["kind"], "")


def series_data(readings: list[DrawnReading]) -> SeriesData:
    """The data of the speeds that are shown, each up to the next reading."""
    shown = [reading for reading in readings if reading.shown]
    data = {"shown_" + name: [f"{r.front:.3f} {r.shown[name]}" for r in shown] for name in SPEEDS}
    return data | {"shown_release": [f"{r.front:.3f} {r.row['release']}" for r in shown if r.row["release"] != "0"]}


def series() -> list[tuple[str, str, str]]:
    """The series of these speeds: name, columns and style."""
    release = ("shown_release", "1:2", "steps lw 4 lc rgb '#56B4E9'")
    return [release, *(("shown_" + name, "1:2", "steps " + style) for name, (_, style) in SPEEDS.items())]


def keys() -> list[tuple[str, str, str]]:
    """What the key says of them: name, style and title."""
    release = ("shown_release", "lines lw 4 lc rgb '#56B4E9'", "release speed")
    return [*(("shown_" + name, "lines " + style, title) for name, (title, style) in SPEEDS.items()), release]
