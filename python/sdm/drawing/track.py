"""The strip of the track below the upper panel: gradients in per mille, areas of reduced adhesion, those without the
special brake."""

from sdm.drawing.sheet import BLACK, LEFT, LETTER, SMALL, STRIP, Sheet, block, rgb
from sdm.drawing.values import DrawnJourney, Span

GRADES = {-1: "#F3C9B1", 0: "#EEEEEE", 1: "#CFE6D2"}  # downhill, level, uphill
AREAS = {"adhesion": ("reduced", "#A9D3EE"), "special brake": ("not used", "#D8C6E6")}  # row: text, colour


def track_rows(journey: DrawnJourney, low: float, high: float) -> list[str]:
    """The rows of the strip: what the track tells within these places."""
    is_within = lambda area: area[0] < high and area[1] > low
    within = [name for name, areas in areas_of(journey).items() if any(map(is_within, areas))]
    return ["gradient"] * any(grad for _, _, grad in journey.gradients) + within


def areas_of(journey: DrawnJourney) -> dict[str, list[Span]]:
    """The areas of each row, as pairs of m."""
    return dict(zip(AREAS, (journey.adhesion, journey.no_special)))


def track_strip(journey: DrawnJourney, sheet: Sheet, low: float, high: float, edge: int) -> list[str]:
    """The strip's part of the script, over the same places: gradients in per mille, areas of reduced adhesion, those
    without the special brake."""
    rows = track_rows(journey, low, high)
    if not rows:
        return []
    boxes, letters, scale = [], [], (sheet.right - LEFT) / (high - low)
    grades = [(start, end, grad, GRADES[(grad > 0) - (grad < 0)]) for start, end, grad in journey.gradients]
    parts = [("gradient", start, end, f"{grad:g}", colour) for start, end, grad, colour in grades]
    parts += [(name, start, end, *AREAS[name]) for name, areas in areas_of(journey).items() for start, end in areas]
    for row, start, end, text, shade in parts:
        start, end = max(start, low), min(end, high)
        if row in rows and start < end:
            y = len(rows) - rows.index(row) - 0.5
            boxes.append(f"{start:.3f} {y} {start:.3f} {end:.3f} {y - 0.42:.2f} {y + 0.42:.2f} {rgb(shade)}")
            if (end - start) * scale > LETTER * len(text) + 4:
                letters.append(f'{(start + end) / 2:.3f} {y} "{text}"')
    names = ", ".join(
        f'"{"gradient (‰)" if row == "gradient" else row}" {len(rows) - k - 0.5}' for k, row in enumerate(rows)
    )
    lines = block("track", boxes) + (block("tracktext", letters) if letters else [])
    lines += [
        "unset arrow; unset label; unset key; unset ylabel; unset grid; set format x; "
        "set xlabel 'place (m)' offset 0,0.4"
    ]
    lines += sheet.frame(edge, edge + STRIP * len(rows)) + [
        f"set yrange [0:{len(rows)}]; set ytics scale 0 {SMALL} ({names})"
    ]
    series = ["$track using 1:2:3:4:5:6:7 with boxxyerror fs solid noborder lc rgb variable notitle"]
    series += [f"$tracktext using 1:2:3 with labels font ',10' tc rgb '{BLACK}' notitle"] if letters else []
    return lines + ["plot " + ", ".join(series)]
