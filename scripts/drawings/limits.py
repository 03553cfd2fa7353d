"""The limits of one target over place and speed, for PROFILE: by `tools/curves` over limits.input, whose reading is
drawn too."""

import csv
import subprocess
import sys
from pathlib import Path

from scripts.drawings.sheet import Point, Sheet

TOP = Path(__file__).resolve().parents[2]
INPUT = Path(__file__).with_name("limits.input")

# what is drawn of the target, its colour, its words, and how far right of the curve's start they stand
CURVES = [
    ("EBD", "red", "EBD", 0),
    ("EBI", "red", "EBI", 6),
    ("SBI2", "orange", "SBI", 8),
    ("W", "yellow", "W", -3),
    ("P", "green", "P", -6),
    ("I", "blue", "I", 14),
]
FIRST_M, LAST_M, TOP_KMH = 560, 2080, 125


def at(place_m: float, kmh: float) -> Point:
    """Where a place and a speed are drawn."""
    return 50 + (place_m - FIRST_M) / (LAST_M - FIRST_M) * 580, 400 - kmh / TOP_KMH * 350


def limits() -> list[dict[str, str]]:
    """The limits of the SvL at each speed in km/h, as `tools/curves` writes them."""
    words = [sys.executable, str(TOP / "tools/curves"), str(INPUT), "1", "--to", str(TOP_KMH)]
    said = subprocess.run(words, check=True, capture_output=True, text=True).stdout
    return [row for row in csv.DictReader(said.splitlines()) if row["target"] == "SvL"]


def metres(text: str) -> float:
    """A place in mm as metres."""
    return int(text) / 1000


def draw_axes(sheet: Sheet, svl: float) -> None:
    sheet.line([at(FIRST_M, 0), at(LAST_M, 0)])
    sheet.line([at(FIRST_M, 0), at(FIRST_M, TOP_KMH)])
    sheet.text((4, 22), "speed in km/h", kind="small")
    for kmh in (50, 100):
        sheet.text((44, at(0, kmh)[1] + 6), str(kmh), anchor="end", kind="small")
    for place in (1000, 1500):
        sheet.text((at(place, 0)[0], 422), f"{place} m", anchor="middle", kind="small")
    sheet.text((at(svl, 0)[0], 422), "SvL", anchor="middle", kind="strong")


def draw_train(sheet: Sheet, row: dict[str, str], reading: list[int]) -> None:
    """The front ends at the speed of the reading, and the way from the EBI until the brake works: to V_bec."""
    _, est, least, most, speed, accel, under = reading
    kmh = speed * 3.6 / 1000
    for place, words, drop in ((least, "min safe", 108), (est, "estimated", 130), (most, "max safe front end", 152)):
        x, y = at(place / 1000, kmh)
        sheet.dot((x, y))
        sheet.line([(x, y + 6), (x, y + drop - 14)], "faint", 1)
        sheet.text((x + 4, y + drop), words, anchor="end", kind="small")
    # V_bec and D_bec with T_traction 1 s and T_berem 3 s, as PROFILE has them
    gained = speed / 1000 + under / 1000 + accel / 100
    v_bec = gained + accel / 100 * 3
    ebi = metres(row["EBI"])
    way = gained - accel / 200 + (gained + accel / 100 * 1.5) * 3
    end = at(ebi + way, v_bec * 3.6)
    sheet.arrow(at(ebi, kmh), end, "red")
    sheet.dot(end, "red")
    sheet.text((end[0] + 8, end[1] - 6), "V_bec, D_bec further on", "red", kind="small")


def draw() -> Sheet:
    """The picture."""
    rows = limits()
    reading = [int(word) for word in INPUT.read_text().split("%%\nread,")[1].split(",")]
    sheet = Sheet(
        660,
        440,
        "Speed over place before an SvL: the limits I, P, W, SBI and EBI come one after the other, then the curve EBD,"
        " which ends at the SvL. A train at 100 km/h has three front ends; from the EBI it runs D_bec until its brake"
        " works, gains up to V_bec, and meets the EBD.",
    )
    draw_axes(sheet, metres(rows[0]["EBD"]))
    for name, colour, words, right in CURVES:
        points = [at(metres(row[name]), float(row["speed"])) for row in rows]
        inside = [point for point in points if 50 <= point[0]]
        sheet.line(inside, colour, 2 if name != "EBD" else 3, dashed=name == "EBD")
        sheet.text((inside[-1][0] + right, inside[-1][1] - 8), words, colour, "middle", "strong")
    here = min(rows, key=lambda row: abs(float(row["speed"]) - reading[4] * 3.6 / 1000))
    draw_train(sheet, here, reading)
    return sheet
