"""The way of a recording through the laboratory's tools, for LABORATORY."""

from scripts.drawings.sheet import Sheet


def draw() -> Sheet:
    """The picture."""
    sheet = Sheet(
        660,
        400,
        "A recording of another computer becomes an input by tools/import; sdm run and the exact model write its rows;"
        " tools/compare and tools/report hold them against what the other computer decided; tools/why explains a row.",
    )
    boxes = [
        (20, 20, 220, ["recording (CSV)", "of another computer"], "ink"),
        (20, 120, 220, ["input: data, %%,", "records"], "ink"),
        (20, 220, 220, ["rows of sdm run", "proved"], "green"),
        (420, 120, 220, ["rows of tools/model", "exact, tested"], "blue"),
        (420, 220, 220, ["what the other", "computer decided"], "ink"),
        (220, 320, 220, ["compare, report, why", "runs of differences"], "red"),
    ]
    for x, y, width, told, colour in boxes:
        sheet.box((x, y), (width, 58), colour)
        sheet.lines((x + 12, y + 24), told, colour="ink")
    arrows = [
        ((130, 80), (130, 118), "tools/import", (140, 104)),
        ((130, 180), (130, 218), "sdm run", (140, 204)),
        ((242, 149), (418, 149), "tools/model", (285, 140)),
        ((242, 45), (530, 45), "", (0, 0)),
        ((130, 280), (260, 318), "", (0, 0)),
        ((530, 280), (400, 318), "", (0, 0)),
    ]
    for begin, end, words, where in arrows:
        if end == (530, 45):
            sheet.line([begin, (650, 45), (650, 249)], "ink")
            sheet.arrow((650, 249), (642, 249))
        else:
            sheet.arrow(begin, end)
        if words:
            sheet.text(where, words, "faint", kind="small")
    sheet.line([(420, 165), (330, 165), (330, 316)], "blue")
    sheet.arrow((330, 300), (330, 318), "blue")
    return sheet
