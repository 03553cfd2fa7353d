"""What looks wrong in an input that is accepted: numbers that disagree, with the evidence and the likely slip."""
from collections.abc import Iterator
from fractions import Fraction
from statistics import median

from sdm.exact import (
    Authority,
    Calculated,
    Data,
    Limit,
    Reading,
    Stop,
)

from sdm.findings.finding import Finding, doubt
from sdm.findings.data_doubts import data_doubts
from sdm.findings.motion import ACCEL_MOST, PlacedReading, by_speed, is_place_possible, is_speed_possible, reads, way
from sdm.findings.records_part import Placed
from sdm.findings.toml_places import Places

FAR_CM = 100_000  # from an authority's end
LONG_GAP_DS = 600
MOST_LINES = 10  # that a doubt names
# What a whole journey's unit does to the way by the front ends, as a part of the way by the speeds.
SLIPS = [
    (Fraction(1, 10), "front ends look like cm, and mm are due: times ten they fit"),
    (Fraction(1, 1000), "front ends look like m, and mm are due: times 1000 they fit"),
    (Fraction(10), "times look like s, and ds are due (or speeds like cm/s, and mm/s are due): times ten they fit"),
    (Fraction(1, 100), "times look like ms, and ds are due: divided by 100 they fit"),
    (Fraction(2500, 9), "speeds look like km/h, and mm/s are due: times 1000/3.6 they fit"),
    (Fraction(1000), "speeds look like m/s, and mm/s are due: times 1000 they fit"),
    (Fraction(5, 18), "speeds are 3.6 times too fast, as where km/h were taken for m/s: divided by 3.6 they fit"),
    (Fraction(18, 5), "speeds are 3.6 times too slow, as where m/s were taken for km/h: times 3.6 they fit"),
    (Fraction(-1), "front ends fall as the train runs, and must rise: with the other sign they fit"),
]
# Of one number of a reading: how many of its units one of another unit is.
ONE_SLIPS: dict[str, list[tuple[int | Fraction, str]]] = {
    "est": [(10, "cm"), (1000, "m")],
    "speed": [(Fraction(2500, 9), "km/h"), (1000, "m/s"), (10, "cm/s")],
}
NEAR_THE_END = 0.95  # a stop from this part of the way on
LONG_STEPS = 40  # into which a journey is cut
NEAR = 0.25  # how far a ratio may be from that of a slip


def doubts(data: Data, placed: list[Placed], places: Places | None) -> list[Finding]:
    """All that looks wrong."""
    path = reads(placed)
    whole = standing(path) or slip(path)
    found = whole or [*steps(path), *gaps(path), *authorities(data, placed, places)]
    return data_doubts(data, places) + found


def named(read: PlacedReading, column: str) -> str:
    return f"record {read.number}, read {column}"


def also(lines: list[int]) -> str:
    """Where the same is so on more lines."""
    if not lines:
        return ""
    shown = ", ".join(map(str, lines[:MOST_LINES])) + (", …" if len(lines) > MOST_LINES else "")
    return f"; likewise on {len(lines)} more lines: {shown}" if len(lines) > 1 else f"; likewise on line {shown}"


def standing(path: list[PlacedReading]) -> list[Finding]:
    """A train that never moves although it has a speed."""
    if len(path) < 3:
        return []
    ends, whole, last = [read.reading.est for read in path], way(path), path[-1]
    if max(ends) - min(ends) > 100 or whole.least <= whole.gone:
        return []
    found = f"{ends[0]} mm at {len(path)} readings from {path[0].time:g} to {last.time:g} s"
    expected = f"at least {whole.least:,.0f} mm of way, by speeds up to {max(r.speed for r in path):,.0f} mm/s"
    return [doubt(path[0].line, named(path[0], "est"), found, expected, "the front end never moves")]


def slip(path: list[PlacedReading]) -> list[Finding]:
    """A whole journey in another unit, or along places that fall: most of its steps have the ratio of a slip, and the
    whole way isn't possible. Where steps are too short for it, those that the noise of front ends doesn't hide."""
    if len(path) < 3 or way(path).is_possible():
        return []
    for pairs in (list(zip(path, path[1:])), long_steps(path)):
        ways = [(b.reading.est - a.reading.est, told) for a, b, told in told_ways(path, pairs) if told > 0]
        for factor, hint in SLIPS:
            fitting = [gone for gone, told in ways if abs(gone / told / float(factor) - 1) <= NEAR]
            if fitting and 4 * len(fitting) >= 3 * len(ways):
                return [way_doubt(path, f"{hint}; so it is in {len(fitting)} of {len(ways)} steps")]
    return []


def told_ways(
    path: list[PlacedReading], pairs: list[tuple[PlacedReading, PlacedReading]]
) -> Iterator[tuple[PlacedReading, PlacedReading, float]]:
    """Steps with the way by the speeds between."""
    numbers = {read.number: i for i, read in enumerate(path)}
    for a, b in pairs:
        yield a, b, by_speed(path[numbers[a.number] : numbers[b.number] + 1])


def long_steps(path: list[PlacedReading]) -> list[tuple[PlacedReading, PlacedReading]]:
    """At most LONG_STEPS steps over the whole journey, of about as many readings each."""
    size = max(len(path) // LONG_STEPS, 1)
    chosen = path[::size]
    return list(zip(chosen, chosen[1:]))


def way_doubt(path: list[PlacedReading], hint: str) -> Finding:
    """A whole way that the speeds and times don't make."""
    whole = way(path)
    found = f"{whole.gone:,} mm of way from line {path[0].line} to line {path[-1].line}"
    expected = f"{max(whole.least, 0):,.0f} to {whole.most:,.0f} mm, by its speeds and times"
    return doubt(path[0].line, named(path[0], "est, speed, time"), found, expected, hint)


def steps(path: list[PlacedReading]) -> list[Finding]:
    """Readings that don't follow from the one before: each kind of doubt once, with the lines of the others. Where each
    does, the whole way still may not."""
    first: dict[str, Finding] = {}
    others: dict[str, list[int]] = {}
    for kind, found in step_doubts(path):
        if kind in first:
            others.setdefault(kind, []).append(found.line or 0)
        else:
            first[kind] = found
    return [
        doubt(each.line, each.where, each.found, each.expected, each.hint + also(others.get(kind, [])))
        for kind, each in first.items()
    ] or drift(path)


def step_doubts(path: list[PlacedReading]) -> Iterator[tuple[str, Finding]]:
    """Each reading that the one before can't have led to; one with a slip of its own is passed over."""
    if not path:
        return
    before = path[0]
    for number, read in enumerate(path[1:]):
        place_fits, speed_fits = is_place_possible(before, read), is_speed_possible(before, read)
        if place_fits and speed_fits:
            before = read
            continue
        place = one_slip("est", before, read) or (one_slip("est", read, before) if number == 0 else None)
        speed = one_slip("speed", before, read) or (one_slip("speed", read, before) if number == 0 else None)
        if not place_fits and place is not None:
            yield place[0], place_doubt(before, read, place)
            before = before if place[1] is read else read
        elif not speed_fits and speed is not None:
            yield speed[0], speed_doubt(before, read, speed)
            before = before if speed[1] is read else read
        else:
            yield ("speed", speed_doubt(before, read, None)) if place_fits else ("est", place_doubt(before, read, None))
            before = read


OneSlip = tuple[str, PlacedReading, str]  # the kind of doubt, the reading that has the slip, the hint


def one_slip(column: str, right: PlacedReading, wrong: PlacedReading) -> OneSlip | None:
    """A unit in which one number of a reading would fit to the other reading, taken to be right."""
    fits = is_place_possible if column == "est" else is_speed_possible
    value = getattr(wrong.reading, column)
    for factor, unit in ONE_SLIPS[column]:
        scaled = wrong._replace(reading=wrong.reading._replace(**{column: value * factor}))
        pair = (right, scaled) if right.line < wrong.line else (scaled, right)
        if value > 0 and fits(*pair):
            due = "mm" if column == "est" else "mm/s"
            hint = f"{column} looks like {unit}: as such it would be {float(value * factor):,.0f} {due}"
            return f"{column} {unit}", wrong, hint
    return None


def place_doubt(before: PlacedReading, read: PlacedReading, slipped: OneSlip | None) -> Finding:
    """A front end where the train can't have come."""
    step, at = way([before, read]), slipped[1] if slipped else read
    lines = f"from line {before.line} to line {read.line} in {read.time - before.time:g} s"
    found = f"{at.reading.est} mm: a way of {step.gone:,} mm {lines}"
    expected = f"{step.least:,.0f} to {step.most:,.0f} mm, by {before.reading.speed} and {read.reading.speed} mm/s"
    return doubt(at.line, named(at, "est"), found, expected, slipped[2] if slipped else "a jump")


def speed_doubt(before: PlacedReading, read: PlacedReading, slipped: OneSlip | None) -> Finding:
    """A speed that the train can't have reached."""
    at = slipped[1] if slipped else read
    lines = f"on line {before.line}, and {read.reading.speed} mm/s {read.time - before.time:g} s later"
    found = f"{at.reading.speed} mm/s: {before.reading.speed} mm/s {lines}"
    expected = f"a change of at most {ACCEL_MOST / 1000:g} m/s²"
    return doubt(at.line, named(at, "speed"), found, expected, slipped[2] if slipped else "a jump")


def drift(path: list[PlacedReading]) -> list[Finding]:
    """Steps that are each possible, and a whole way that isn't."""
    if not path or way(path).is_possible():
        return []
    return [way_doubt(path, "way and speeds drift apart")]


def gaps(path: list[PlacedReading]) -> list[Finding]:
    """Times far apart while the train moves, where the others are close together."""
    times = [b.reading.time - a.reading.time for a, b in zip(path, path[1:])]
    usual = median(times) if len(times) >= 4 else 0
    found: list[Finding] = []
    for a, b, time in zip(path, path[1:], times):
        if usual > 0 and time > max(LONG_GAP_DS, 20 * usual) and a.speed > 0 and b.speed > 0:
            text = f"{time / 10:g} s after the reading on line {a.line}"
            expected = f"about {usual / 10:g} s, as between most readings"
            found.append(
                doubt(b.line, named(b, "time"), text, expected, "readings are missing, or the time has a slip")
            )
    return found


def authorities(data: Data, placed: list[Placed], places: Places | None) -> list[Finding]:
    """Each authority, from the opening's on, with the readings under it."""
    at = places.of_value(("authority",)) if places is not None else None
    line, where = at[0] if at is not None else None, "authority"
    authority: Authority | Calculated = data.authority
    found, under = list[Finding](), list[Placed]()
    for each in placed:
        if isinstance(each.event, (Stop, Calculated, Limit)):
            found += authority_doubts(line, where, authority, under, data.track.length)
            kind = {Stop: "end", Calculated: "endcalc", Limit: "limit"}[type(each.event)]
            line, authority, where, under = each.line, each.event, f"record {each.number}, {kind}", []
        elif isinstance(each.event, Reading):
            under.append(each)
    return found + authority_doubts(line, where, authority, under, data.track.length)


def authority_doubts(
    line: int | None, where: str, authority: Authority | Calculated, under: list[Placed], length: int
) -> list[Finding]:
    """Readings far past an authority on a track of a length in cm; an SvL or an end in mm."""
    path = reads(under)
    if isinstance(authority, Limit):
        return far_past("LOA", authority.loa, path, length) + end_in_mm(line, where, "LOA", authority.loa, path)
    svl, eoa, found = authority.svl, authority.eoa, list[Finding]()
    if svl - eoa > FAR_CM and eoa <= svl // 10 <= eoa + FAR_CM:
        text = f"{svl} cm, {(svl - eoa) / 100:,.0f} m past the EOA at {eoa} cm"
        found.append(doubt(line, f"{where} svl", text, "an SvL near the EOA", f"as mm it would be {svl // 10} cm"))
    return found + far_past("EOA", eoa, path, length) + end_in_mm(line, where, "EOA", eoa, path)


def far_past(name: str, place: int, path: list[PlacedReading], length: int) -> list[Finding]:
    """Readings far past the end of their authority."""
    far = [read for read in path if read.reading.min - 10 * place > 10 * FAR_CM]
    if not far:
        return []
    first = far[0].reading.min
    text = f"{first} mm, {(first - 10 * place) / 1_000_000:.1f} km past the {name} at {place} cm"
    hint = "an authority is missing, or a place has a slip"
    if first <= 1000 * place and 100 * place <= length:
        hint = f"as m the {name} would be {100 * place} cm"
    hint += also([read.line for read in far[1:]])
    return [doubt(far[0].line, named(far[0], "min"), text, f"at most {FAR_CM // 100_000} km past it", hint)]


def end_in_mm(line: int | None, where: str, name: str, place: int, path: list[PlacedReading]) -> list[Finding]:
    """A train that comes to stand right where the authority would end, were it in mm."""
    if not path or path[-1].reading.speed > 0 or path[-1].reading.est - path[0].reading.est < 100_000:
        return []
    last = path[-1].reading.est
    if not NEAR_THE_END * place <= last <= place:
        return []
    gap = place / 100 - last / 1000
    text = f"{place} cm; the train stands {gap:,.1f} m before it, at {last} mm (line {path[-1].line})"
    return [doubt(line, f"{where} {name.lower()}", text, "a stop near the end", f"as mm it would be {place // 10} cm")]
