"""Numbers that may be others than the data say: of the train, the national values, the track, authorities,
restrictions and readings, of the profile itself, and of how the recording's places count."""

from collections.abc import Iterator, Sequence
from dataclasses import dataclass
from fractions import Fraction
from typing import Any

from sdm.diagnosis.model import Reread, data, journey, limits, records, triggers, units
from sdm.diagnosis.rules import always

NumberPath = tuple[str | int, ...]
NumberValue = int | Fraction | bool
Changes = tuple[tuple[NumberPath, NumberValue], ...]
MOST_ENTRIES = 12  # of a list, those nearest to what is looked at
SHOWN = {"cm": ("m", 100), "ds": ("s", 10), "mm": ("m", 1000), "cm/s²": ("m/s²", 100), "mm/s": ("m/s", 1000)}
FAR_M = (30, 75, 150, 200, 250, 300, 450)  # by which places are changed, to see what turns
RELEASES = tuple(range(0, 65, 5))  # km/h, that are tried


@dataclass(frozen=True)
class Number:
    """A number: where it stands, what it is called, its unit, its value, and its range. `choices` are values to try
    where it is no matter of more or less."""

    path: NumberPath
    told: str
    unit: str
    given: NumberValue
    least: NumberValue = 0
    most: NumberValue = 10**9
    choices: tuple[NumberValue, ...] = ()

    @property
    def far(self) -> list[Fraction]:
        """Values far from it, of a length or a place: what lies along the track may turn between them."""
        if self.unit != "cm" or self.path[0] == "authority":
            return []
        given = Fraction(self.given)
        if self.path[-1] == "length":
            return [given * part / 20 for part in (5, 8, 10, 11, 12, 13, 14, 15, 16, 18, 23, 28, 36)]
        by = [sign * metres for metres in FAR_M for sign in (-1, 1)]
        return [given + 100 * m for m in by if self.least <= given + 100 * m <= self.most]

    @property
    def step(self) -> Fraction:
        """By how much it is changed to see what it does."""
        return max(abs(Fraction(self.given)) / 32, Fraction(1))

    def sentence(self, value: NumberValue) -> str:
        """That it is another one."""
        if isinstance(self.given, bool):
            return f"{self.told} is {str(value).lower()}, not {str(self.given).lower()}"
        return f"{self.told} is {shown(value)}{self.unit and ' ' + self.unit}, not {shown(self.given)}"

    def between(self, least: NumberValue, greatest: NumberValue) -> str:
        """That it is another one, of which is known only between which it lies."""
        unit = self.unit and " " + self.unit
        return f"{self.told} is from {shown(least)} to {shown(greatest)}{unit}, not {shown(self.given)}"


def shown(value: NumberValue) -> str:
    """A number with at most three digits behind the point."""
    return f"{float(value):.3f}".rstrip("0").rstrip(".")


def of_section(section: Any, path: NumberPath, name: str) -> Iterator[Number]:
    """The numbers and flags of a section of the data."""
    for key, value in data.values_of(section):
        where = f"{key.name}{name}"
        if isinstance(value, bool):
            yield Number((*path, key.name), where, "", value, choices=(not value,))
        elif isinstance(value, int):
            yield Number((*path, key.name), where, key.unit, value, key.least, max(key.most, value))


def of_data(held: Any, places: tuple[int, int]) -> Iterator[Number]:
    """The numbers of the data part; of lists along the track those between two places in cm."""
    yield from of_section(held.train._replace(band=()), ("train",), " of the train")
    for i, band in enumerate(held.train.band):
        yield from of_section(band, ("train", "band", i), f" of band {i + 1}" if len(held.train.band) > 1 else "")
    yield from of_section(held.national, ("national",), "")
    low, high = places
    for name in ("gradient", "speed", "adhesion", "no_special"):
        entries = getattr(held.track, name)
        near = [i for i in range(len(entries)) if is_near(entries, i, low, high)]
        for i in near[:MOST_ENTRIES]:
            where = f" of track.{name} {i + 1}, at {shown(Fraction(entries[i].start, 100))} m"
            for number in of_section(entries[i], ("track", name, i), where):
                is_first = number.path[-1] == "start" and i == 0 and name in ("gradient", "speed")
                if not is_first:
                    yield limited(number, held.track.length)


def is_near(entries: Sequence[Any], i: int, low: int, high: int) -> bool:
    """Whether an entry of the track lies between two places, at least in a part."""
    end = getattr(entries[i], "end", entries[i + 1].start if i + 1 < len(entries) else high)
    return bool(entries[i].start <= high and end >= low)


def limited(number: Number, length: int) -> Number:
    """A number of the track: a place is one on it."""
    if number.path[-1] not in ("start", "end"):
        return number
    return Number(number.path, number.told, number.unit, number.given, 0, length)


def of_events(authorities: Sequence[Any], restrictions: Sequence[Any], length: int) -> Iterator[Number]:
    """The numbers of authorities and restrictions, each by its number among them."""
    for k, authority in enumerate(authorities):
        first = " of the first authority" if k == 0 else f" of authority {k + 1}"
        for name, value in authority._asdict().items():
            path: NumberPath = ("authority", k, name)
            if name in ("release", "speed"):
                choices = RELEASES if name == "release" else ()
                yield Number(path, f"{name}{first}", "km/h", value, 0, 500, choices)
            else:
                yield Number(path, f"{name}{first}", "cm", value, 0, length)
    for k, restriction in enumerate(restrictions):
        for name in ("start", "end", "speed"):
            value, unit = getattr(restriction, name), "km/h" if name == "speed" else "cm"
            most = 500 if name == "speed" else length
            yield Number(
                ("restriction", k, name), f"{name} of restriction {restriction.identity}", unit, value, 0, most
            )
        delayed = restriction.delayed == 1
        told = f"delayed of restriction {restriction.identity}"
        yield Number(("restriction", k, "delayed"), told, "", delayed, choices=(not delayed,))


def of_readings(under: int) -> Iterator[Number]:
    """What all readings may have in another way, and the recording's places."""
    yield Number(("reading", "under"), "the under-reading amount of all readings", "mm/s", under, 0, 10_000)
    yield Number(("reading", "speed"), "the factor of all speeds of readings", "", 1, Fraction(1, 10), 10)
    yield Number(("reading", "accel"), "the factor of all accelerations of readings", "", 1, -10, 10, (-1, 0))
    yield Number(("reading", "shift"), "the shift of all front ends", "mm", 0, -100_000, 100_000)
    yield Number(("recorded", "shift"), "the shift of the recording's places", "mm", 0, -(10**9), 10**9)


def of_profile() -> Iterator[Number]:
    """The values that PROFILE has of its own."""
    yield Number(("profile", "T_warning"), "T_warning", "ds", limits.T_warning, 0, 300)
    yield Number(("profile", "T_driver"), "T_driver", "ds", limits.T_driver, 0, 300)
    yield Number(("profile", "T_indication"), "the 5 s of T_indication", "ds", 50, 0, 300)
    yield Number(("profile", "A_est2"), "the 0.4 m/s² of A_est2", "cm/s²", limits.A_EST2_MOST, 0, 300)
    for name, km_h in (("dV_ebi", Fraction(15, 2)), ("dV_sbi", Fraction(11, 2)), ("dV_warning", Fraction(4))):
        yield Number(("profile", name), f"{name} up to 110 km/h", "km/h", km_h, 0, 30)
    yield Number(("profile", "speeds"), "the factor of all speeds of the profile and the restrictions", "", 1, 0, 4)


def of(changes: Changes, head: str) -> dict[NumberPath, NumberValue]:
    """The changes of a kind, by the rest of their paths."""
    return {path[1:]: value for path, value in changes if path[0] == head}


def changed_data(held: Any, changes: Changes) -> Any:
    """Data with other numbers."""
    for path, value in changes:
        if path[0] in ("train", "national", "track"):
            held = replaced(held, path, value)
    factor = of(changes, "profile").get(("speeds",))
    if factor is not None:
        entries = tuple(
            each._replace(speed=max(Fraction(each.speed) * Fraction(factor), Fraction(1))) for each in held.track.speed
        )
        held = held._replace(track=held.track._replace(speed=entries))
    return held


def replaced(held: Any, path: Sequence[str | int], value: NumberValue) -> Any:
    """A value with another one under a path."""
    name, rest = path[0], path[1:]
    if isinstance(name, int):
        return held[:name] + (replaced(held[name], rest, value) if rest else value,) + held[name + 1 :]
    return held._replace(**{name: replaced(getattr(held, name), rest, value) if rest else value})


def changed_event(event: Any, head: str, number: int, changes: Changes) -> Any:
    """An authority or a restriction with other numbers."""
    own: dict[str, Any] = {str(path[1]): value for path, value in of(changes, head).items() if path[0] == number}
    if head == "restriction":
        factor = of(changes, "profile").get(("speeds",))
        own |= {"speed": max(Fraction(event.speed) * Fraction(factor), Fraction(1))} if factor is not None else {}
        own = {name: int(value) if name == "delayed" else value for name, value in own.items()}
    return event._replace(**own) if own else event


def changed_reading(reading: records.Reading, changes: Changes) -> records.Reading:
    """A reading with other numbers."""
    own = of(changes, "reading")
    for path, value in own.items():
        name = str(path[0])
        if name == "under":
            reading = reading._replace(under=round(value))
        elif name in ("speed", "accel"):
            reading = reading._replace(**{name: round(getattr(reading, name) * Fraction(value))})
        else:
            ends = {end: getattr(reading, end) + round(value) for end in ("est", "min", "max")}
            reading = reading._replace(**ends)
    return reading


def rules_of(changes: Changes) -> list[Reread]:
    """The rules of the model that have other values of the profile."""
    found: list[Reread] = []
    for (name,), value in of(changes, "profile").items():
        if name in ("T_warning", "T_driver"):
            found.append(Reread(limits, str(name), always(value)))
        elif name == "A_est2":
            found.append(Reread(limits, "A_EST2_MOST", always(value)))
        elif name == "T_indication":
            found.append(Reread(journey, "times_of", least_indication(value)))
        elif name in MARGINS:
            found += [Reread(owner, str(name), margin_from(value)) for owner in MARGINS[str(name)]]
    return found


MARGINS: dict[str, tuple[Any, ...]] = {"dV_ebi": (limits, triggers), "dV_sbi": (triggers,), "dV_warning": (triggers,)}


def least_indication(value: NumberValue) -> Any:
    """T_indication with another least value than 5 s."""

    def make(rule: Any) -> Any:
        def times_of(held: Any) -> Any:
            times = rule(held)
            return times._replace(T_indication=max(4 * times.T_bs // 5, value) + limits.T_driver)

        return times_of

    return make


def margin_from(value: NumberValue) -> Any:
    """A margin that is another one up to 110 km/h, and rises as before."""

    def make(rule: Any) -> Any:
        more = Fraction(value) * units.NOTCHES_PER_KM_H - rule(0)
        return lambda v: rule(v) + int(more)

    return make
