"""The data part (FORMATS "The data part"): its quantities by the names of their keys, and the rules of refusal.

Python's reader of TOML 1.0 makes a table of it. A table that is accepted becomes Data, with Train, National, Track
and Stop or Limit in it; units as in FORMATS.
"""
import re
import tomllib
from collections.abc import Iterator
from functools import cache
from typing import Annotated, Any, NamedTuple, TypeVar, get_args, get_origin, get_type_hints

from sdm_evidence.model.outcome import bad_data

Table = dict[str, Any]
MOST_CM, REFUSED = 10_000_000, object()  # REFUSED stands where an absent key is refused
DIVIDING_LINE = re.compile(rb"^%%(?:\r?\n|\Z)", re.MULTILINE)
MOST_DEEP = 80  # of arrays and tables


class Key(NamedTuple):
    """A row of the tables in FORMATS, as a note to the type of a field: its range (of a list how many entries), what
    counts where it is absent, the step of its values, the version that brings it, how many of its units one of
    version 1 is, and the unit, with that of version 1 where it is another; then the name, the kind that its value is
    of, and the section that it holds or that each entry of its list is."""

    least: int = 0
    most: int = 0
    absent: Any = REFUSED
    step: int = 1
    since: int = 1
    old_unit: int = 1
    unit: str = ""
    unit_of_1: str = ""
    name: str = ""
    kind: type = str
    of: Any = None


class Band(NamedTuple):
    upper: Annotated[int | None, Key(1, 500, None, unit="km/h")]
    emergency: Annotated[int, Key(1, 400, unit="cm/s²")]
    service: Annotated[int, Key(1, 400, unit="cm/s²")]
    normal: Annotated[int, Key(1, 400, unit="cm/s²")]
    kdry: Annotated[int, Key(1, 1000, unit="thousandths")]
    kwet: Annotated[int, Key(1, 1000, unit="thousandths")]
    kn_up: Annotated[int, Key(0, 1000, unit="cm/s²")]
    kn_down: Annotated[int, Key(0, 1000, unit="cm/s²")]
    emergency_reduced: Annotated[int | None, Key(1, 400, None, since=2, unit="cm/s²")]


class Train(NamedTuple):
    length: Annotated[int, Key(1, 150_000, unit="cm")]
    max_speed: Annotated[int, Key(1, 500, unit="km/h")]
    rotating_mass: Annotated[int | None, Key(0, 50, None, unit="percent")]
    traction_cutoff_time: Annotated[int, Key(0, 300, unit="ds")]
    traction_cutoff_interface: Annotated[bool, Key()]
    emergency_time: Annotated[int, Key(0, 300, unit="ds")]
    service_time: Annotated[int, Key(0, 300, step=5, unit="ds")]
    service_brake: Annotated[bool, Key()]
    band: Annotated[tuple[Band, ...], Key(1, 10)]


class National(NamedTuple):
    avadh: Annotated[int, Key(0, 20, unit="twentieths")]
    adhesion_max: Annotated[int, Key(1, 400, unit="cm/s²")]
    guidance: Annotated[bool, Key()]
    service_in_target: Annotated[bool, Key()]
    early_release: Annotated[bool, Key()]
    inhibit_under_reading: Annotated[bool, Key()]


class Gradient(NamedTuple):
    start: Annotated[int, Key(unit="cm")]
    grad: Annotated[int, Key(-800, 800, old_unit=10, unit="tenths of a per mille", unit_of_1="per mille")]


class StaticSpeed(NamedTuple):
    start: Annotated[int, Key(unit="cm")]
    speed: Annotated[int, Key(1, 500, unit="km/h")]
    delayed: Annotated[bool, Key(absent=True)]


class Area(NamedTuple):
    start: Annotated[int, Key(unit="cm")]
    end: Annotated[int, Key(unit="cm")]


class Track(NamedTuple):
    length: Annotated[int, Key(1, MOST_CM, unit="cm")]
    gradient: Annotated[tuple[Gradient, ...], Key(0, 512, ())]
    speed: Annotated[tuple[StaticSpeed, ...], Key(1, 128)]
    adhesion: Annotated[tuple[Area, ...], Key(0, 64, ())]
    no_special: Annotated[tuple[Area, ...], Key(0, 64, (), since=2)]


class Stop(NamedTuple):
    eoa: Annotated[int, Key(0, MOST_CM, unit="cm")]
    svl: Annotated[int, Key(0, MOST_CM, unit="cm")]
    release: Annotated[int, Key(0, 500, 0, unit="km/h")]


class Limit(NamedTuple):
    loa: Annotated[int, Key(0, MOST_CM, unit="cm")]
    speed: Annotated[int, Key(1, 500, unit="km/h")]


Authority = Stop | Limit


class Root(NamedTuple):
    version: Annotated[int, Key(1, 2)]
    train: Annotated[Table, Key(of=Train)]
    national: Annotated[Table, Key(of=National)]
    track: Annotated[Table, Key(of=Track)]
    authority: Annotated[Table, Key()]


class Data(NamedTuple):
    """What an accepted data part holds."""

    train: Train
    national: National
    track: Track
    authority: Authority


Section = Band | Train | National | Gradient | StaticSpeed | Area | Track | Stop | Limit
S = TypeVar("S", bound=NamedTuple)
KIND = Key(name="kind")


@cache
def keys_of(made: type) -> tuple[Key, ...]:
    """The keys of a section, by its annotations: a list holds a tuple of sections, `int | None` is a number that may be
    absent."""
    keys = []
    for name, hint in get_type_hints(made, include_extras=True).items():
        kind, key = get_args(hint)
        inner = get_args(kind)
        if get_origin(kind) is tuple:
            keys.append(key._replace(name=name, kind=list, of=inner[0]))
        elif get_origin(kind) is dict:
            keys.append(key._replace(name=name, kind=dict))
        else:
            keys.append(key._replace(name=name, kind=inner[0] if inner else kind))
    return tuple(keys)


BANDS = keys_of(Train)[-1]


def path(name: str, key: Key) -> str:
    return key.name if name == "root" else f"{name}.{key.name}"


def known_keys(made: type, version: int) -> list[Key]:
    """The keys of a section that a version of the data part knows."""
    return [key for key in keys_of(made) if key.since <= version]


def is_of(kind: type, value: object) -> bool:
    """Whether a value is of a kind: a flag is no integer."""
    return type(value) is kind


def take(name: str, table: Table, key: Key, version: int, at_once: bool) -> Any:
    """FORMATS "Which rule is named", 2 and 4: the key is missing, its value is of another kind,
    or outside its range, where that comes at once. A key of a later version counts as absent."""
    if key.since > version:
        return key.absent
    if key.name not in table:
        if key.absent is REFUSED:
            raise bad_data(f"missing {path(name, key)}")
        return key.absent
    value = table[key.name]
    if not is_of(key.kind, value) or key.kind is list and not all(is_of(dict, each) for each in value):
        raise bad_data(f"wrong kind {path(name, key)}")
    if at_once:
        check(name, key, value, key.least, key.most)
    return value * key.old_unit if key.old_unit > 1 and version == 1 else value


def check(name: str, key: Key, value: Any, least: int, most: int) -> None:
    """A number outside its range or between its steps. One that may be absent is in range then."""
    if key.kind is int and value is not None and not (least <= value <= most and value % key.step == 0):
        raise bad_data(f"value {path(name, key)}")


def read_keys(name: str, table: Table, made: type[S], version: int, at_once: bool = False) -> S:
    """FORMATS "Which rule is named", 1 and 2: a key that the version doesn't know, and then key by key."""
    if set(table) - {key.name for key in known_keys(made, version)}:
        raise bad_data(f"unknown key in {name}")
    return made(*(take(name, table, key, version, at_once) for key in keys_of(made)))


def read_section(name: str, table: Table, made: type[S], version: int) -> S:
    """FORMATS "Which rule is named", 1: a section, and then list by list the sections in it."""
    values = read_keys(name, table, made, version)

    def read_list(key: Key) -> tuple[Any, ...]:
        entries = enumerate(getattr(values, key.name), 1)
        return tuple(read_section(f"{path(name, key)}[{i}]", entry, key.of, version) for i, entry in entries)

    return values._replace(**{key.name: read_list(key) for key in keys_of(made) if key.of})


def read_authority(table: Table) -> Authority:
    """FORMATS "Which rule is named", 3 and 4: `kind` before all else, and each range at once."""
    kind = take("authority", table, KIND, 1, False)
    rest = {name: value for name, value in table.items() if name != "kind"}
    if kind not in ("end", "limit"):
        raise bad_data("value authority.kind")
    if kind == "end":
        return read_keys("authority", rest, Stop, 1, at_once=True)
    return read_keys("authority", rest, Limit, 1, at_once=True)


def values_of(section: Section) -> Iterator[tuple[Key, Any]]:
    """The keys of a section with their values."""
    kind: type = type(section)
    return zip(keys_of(kind), section)


def check_section(name: str, values: Section, **ranges: tuple[int, int]) -> None:
    """FORMATS "Which rule is named", 5: the numbers of a section, with other ranges where they are handed in."""
    for key, value in values_of(values):
        check(name, key, value, *ranges.get(key.name, (key.least, key.most)))


def check_bands(bands: tuple[Band, ...]) -> None:
    """FORMATS "Which rule is named", 5: count of bands, their numbers, their order."""
    if not BANDS.least <= len(bands) <= BANDS.most:
        raise bad_data("band count")
    for i, band in enumerate(bands, 1):
        check_section(f"train.band[{i}]", band, emergency_reduced=(1, band.emergency))
    uppers = [band.upper for band in bands]
    for i, (before, upper) in enumerate(zip([0] + uppers, uppers), 1):
        if (upper is None) != (i == len(uppers)) or upper is not None and upper <= (before or 0):
            raise bad_data(f"band order train.band[{i}]")


def check_list(key: Key, entries: tuple[Any, ...], length: int) -> None:
    """FORMATS "Which rule is named", 5: count, values, a first start that is not 0, order."""
    name = f"track.{key.name}"
    if not key.least <= len(entries) <= key.most:
        raise bad_data(f"count {name}")
    for i, entry in enumerate(entries, 1):
        check_section(f"{name}[{i}]", entry, start=(0, length - 1), end=(entry.start + 1, length))
    if entries and entries[0].start != 0 and key.of is not Area:
        raise bad_data(f"gap {name}")
    for i, (before, entry) in enumerate(zip(entries, entries[1:]), 2):
        if entry.start < (before.end if key.of is Area else before.start + 1):
            raise bad_data(f"order {name}[{i}]")


def data_of(table: Table) -> Data:
    """FORMATS "Which rule is named", 1 and 5: all sections in their order, and then the ranges. Gradients are in
    tenths of a per mille, whatever the version; one of version 1 that is out of its range is so in tenths too."""
    root = read_keys("root", table, Root, 1, at_once=True)
    train = read_section("train", root.train, Train, root.version)
    national = read_section("national", root.national, National, root.version)
    track = read_section("track", root.track, Track, root.version)
    data = Data(train, national, track, read_authority(root.authority))
    check_section("train", data.train)
    check_bands(data.train.band)
    check_section("national", data.national)
    check_section("track", data.track)
    for key in keys_of(Track):
        if key.kind is list:
            check_list(key, getattr(data.track, key.name), data.track.length)
    return data


def table_of(data: Data) -> Table:
    """FORMATS "upgrade": the table of version 2 of these data. Keys stand in it exactly where the data have a value,
    and an empty list is left out."""
    table = {name: entries_of(section) for name, section in data._asdict().items()}
    kind = "end" if isinstance(data.authority, Stop) else "limit"
    return {"version": 2} | table | {"authority": {KIND.name: kind} | table["authority"]}


def entries_of(values: Section) -> Table:
    """A section as a table, with its lists of sections."""
    return {
        key.name: [entries_of(each) for each in value] if key.kind is list else value
        for key, value in values_of(values)
        if value is not None and value != ()
    }


def split(data: bytes) -> tuple[bytes, bytes]:
    """FORMATS "The input of `run`": the data part, and the records behind the first line that is exactly `%%`."""
    line = DIVIDING_LINE.search(data)
    if line is None:
        raise bad_data("no %% line")
    return data[: line.start()], data[line.end() :]


def is_in_bounds(value: object, deep: int = 0) -> bool:
    """FORMATS "The data part": numbers of 64 bits at most, arrays and tables not too deep. The root isn't counted."""
    if isinstance(value, (dict, list)):
        inner = value.values() if isinstance(value, dict) else value
        return deep <= MOST_DEEP and all(is_in_bounds(each, deep + 1) for each in inner)
    return not isinstance(value, int) or -(2**63) <= value < 2**63


def read_document(data: bytes) -> Table:
    """FORMATS "The data part": the table of the bytes before the dividing line."""
    try:
        table = tomllib.loads(data.decode("utf-8").removeprefix("\ufeff"))
        if is_in_bounds(table):
            return table
    except (ValueError, RecursionError):
        pass
    raise bad_data("not TOML")
