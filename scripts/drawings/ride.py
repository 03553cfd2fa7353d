"""The times of a ride, for INTEGRATION: from the last covered reading to the brake that works, against the times of the
train data."""

from scripts.drawings.sheet import Sheet

LEFT = 60
# what ends when, in pixels from the last covered reading
READING, JUDGED, OFF, WORKS = 150, 230, 360, 470


def draw() -> Sheet:
    """The picture."""
    sheet = Sheet(
        660,
        360,
        "A time line. From the last covered reading to the next one, which isn't covered, passes p; c later the order"
        " stands at the interface. K later the traction is off, within T_traction of the last covered reading; E later"
        " the brake works, within T_traction and T_berem of it.",
    )
    line = 120
    sheet.line([(20, line), (640, line)])
    for x, colour in ((0, "ink"), (READING, "ink"), (JUDGED, "red"), (OFF, "orange"), (WORKS, "red")):
        sheet.dot((LEFT + x, line), colour)
    sheet.lines((LEFT - 40, 50), ["last covered", "reading"], kind="small")
    sheet.lines((LEFT + READING - 40, 50), ["the next one", "isn't covered"], kind="small")
    sheet.lines((LEFT + JUDGED + 24, 50), ["its order stands", "at the interface"], colour="red", kind="small")
    sheet.line([(LEFT + JUDGED + 30, 78), (LEFT + JUDGED, line - 8)], "faint", 1)
    sheet.lines((LEFT + OFF + 40, 50), ["traction", "off"], colour="orange", kind="small")
    sheet.line([(LEFT + OFF + 46, 78), (LEFT + OFF, line - 8)], "faint", 1)
    sheet.lines((LEFT + WORKS + 20, 50), ["the brake", "works"], colour="red", kind="small")
    spans = [("p", 0, READING, 155), ("c", READING, JUDGED, 155), ("K", JUDGED, OFF, 155), ("E", JUDGED, WORKS, 190)]
    for words, begin, end, y in spans:
        sheet.arrow((LEFT + begin, y), (LEFT + end, y), "ink", both=True)
        sheet.text((LEFT + (begin + end) / 2, y - 7), words, anchor="middle", kind="strong")
    times = [
        ("T_traction: A_est1 counts", 0, OFF + 20, 240, "orange"),
        ("T_traction + T_berem", 0, WORKS + 20, 285, "red"),
    ]
    for words, begin, end, y, colour in times:
        sheet.arrow((LEFT + begin, y), (LEFT + end, y), colour, both=True)
        sheet.text((LEFT + 10, y - 8), words, colour, kind="small")
    sheet.text(
        (LEFT, 330),
        "worst case: the next reading comes p later, and finds the train past its limit",
        "faint",
        kind="small",
    )
    return sheet
