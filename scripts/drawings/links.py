"""The six links from the bytes to the train, for PROMISES: each with its clause and with what is believed there."""

from scripts.drawings.sheet import Sheet

# what a link leads to, what says it, and what is believed for it
LINKS = [
    ("rows", "answer of sdm_main", "streams, main, definitions of inputs and outputs"),
    ("limits", "row of Supervisor::cycle", "the definitions are the profile"),
    ("exact limits", "limits, order, commands of cycle", "the definitions alone"),
    ("motions", "safe, eoa, falls, gaps of cycle", "what a motion is"),
    ("rides", "laws of sdm_ride, Onboard::take", "what a ride is, and its premises"),
    ("the train", "none", "the premises: the integrator shows them"),
]


def draw() -> Sheet:
    """The picture."""
    step, top = 74, 60
    sheet = Sheet(
        660,
        top + step * len(LINKS),
        "Six links from bytes to the train: bytes to rows, rows to limits, computed limits to exact ones, limits to"
        " motions, motions to rides, rides to trains. The first five are clauses and laws; the last one is none.",
    )
    sheet.box((20, 12), (120, 34), "ink")
    sheet.text((80, 35), "bytes", anchor="middle", kind="strong")
    for number, (what, says, believed) in enumerate(LINKS):
        y = top + number * step
        colour = "faint" if says == "none" else "green"
        sheet.arrow((80, y - 14), (80, y + 18), colour)
        sheet.box((20, y + 20), (120, 34), "ink")
        sheet.text((80, y + 43), what, anchor="middle", kind="strong")
        sheet.text((160, y + 6), f"{number + 1}", "faint", "end", "small")
        sheet.text((170, y + 34), f"proved: {says}" if says != "none" else "no proof", colour, kind="small")
        sheet.text((170, y + 54), f"believed: {believed}", "ink", kind="small")
    return sheet
