"""A train that is warned and braked, for README: the readings and rows of examples/interventions."""

from dataclasses import dataclass
from itertools import pairwise
from pathlib import Path

from scripts.drawings.sheet import Point, Sheet

EXAMPLE = Path(__file__).resolve().parents[2] / "examples" / "interventions"
FIRST_M, LAST_M, TOP_KMH = 3150, 5080, 160
EOA_M = 5000
LIMITS = [  # a column, its colour, its name, and where that stands from the curve's start
    ("ebi", "red", "EBI", (14, -10)),
    ("sbi", "orange", "SBI", (6, -10)),
    ("warning", "yellow", "W", (0, -32)),
    ("permitted", "green", "P", (-8, -10)),
]
COLUMNS = "time state status tco sb eb covered ceiling ebi sbi warning permitted indication".split()


@dataclass(frozen=True)
class Moment:
    """A reading with its row: the estimated front end in m, the speed in km/h, and the row's columns."""

    place: float
    kmh: float
    row: dict[str, str]

    def at(self) -> Point:
        return at(self.place, self.kmh)

    def colour(self) -> str:
        """By the strongest command."""
        for column, colour in (("eb", "red"), ("sb", "orange"), ("tco", "yellow")):
            if self.row[column] == "1":
                return colour
        return "blue"


def at(place_m: float, kmh: float) -> Point:
    """Where a place and a speed are drawn."""
    return 44 + (place_m - FIRST_M) / (LAST_M - FIRST_M) * 466, 330 - kmh / TOP_KMH * 290


def moments() -> list[Moment]:
    """The journey of the example."""
    records = (EXAMPLE / "input").read_text().split("%%\n")[1].split()
    readings = [[int(field) for field in record.split(",")[1:]] for record in records]
    rows = [dict(zip(COLUMNS, line.split(","))) for line in (EXAMPLE / "rows").read_text().splitlines()]
    return [Moment(reading[1] / 1000, reading[4] * 0.0036, row) for reading, row in zip(readings, rows, strict=True)]


def draw_axes(sheet: Sheet) -> None:
    sheet.line([at(FIRST_M, 0), at(LAST_M, 0)])
    sheet.line([at(FIRST_M, 0), at(FIRST_M, TOP_KMH)])
    sheet.text((4, 20), "km/h", kind="small")
    for kmh in (50, 100, 150):
        sheet.text((38, at(0, kmh)[1] + 5), str(kmh), anchor="end", kind="small")
    for place in (3500, 4000, 4500):
        sheet.text((at(place, 0)[0], 352), f"{place} m", anchor="middle", kind="small")
    sheet.line([at(EOA_M, 0), at(EOA_M, 60)], "ink", 3)
    sheet.text((at(EOA_M, 0)[0], 352), "EOA", anchor="middle", kind="strong")


def draw_limits(sheet: Sheet, journey: list[Moment]) -> None:
    """Each limit, where it lies at the speeds of the journey."""
    for column, colour, name, (right, down) in LIMITS:
        points = [at(int(each.row[column]) / 1000, each.kmh) for each in journey]
        x, y = points[0]
        sheet.line(points, colour, 1.5, dashed=True)
        sheet.text((x + right, y + down), name, colour, "middle", "strong")


def draw_train(sheet: Sheet, journey: list[Moment]) -> None:
    """The train's way, in the colour of what is commanded."""
    for before, after in pairwise(journey):
        sheet.line([before.at(), after.at()], before.colour(), 4)
    for number, each in enumerate(journey):
        if number and each.colour() != journey[number - 1].colour():
            sheet.dot(each.at(), each.colour())


def draw() -> Sheet:
    """The picture."""
    sheet = Sheet(
        530,
        446,
        "Speed over place. A train at 144 km/h passes P, W, SBI and EBI one after the other: it is warned and its"
        " traction is cut off, then the service brake comes, then the emergency brake, which is held until the train"
        " stands before its end of authority.",
    )
    journey = moments()
    draw_axes(sheet)
    draw_limits(sheet, journey)
    draw_train(sheet, journey)
    words = [
        ("blue", "nothing is commanded"),
        ("yellow", "past W: warning, traction cut off"),
        ("orange", "past SBI: the service brake"),
        ("red", "past EBI: the emergency brake, until it stands"),
    ]
    for number, (colour, told) in enumerate(words):
        y = 376 + 21 * number
        sheet.line([(44, y - 5), (70, y - 5)], colour, 4)
        sheet.text((78, y), told, colour)
    return sheet
