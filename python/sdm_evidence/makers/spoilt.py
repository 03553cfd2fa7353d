"""Breaks rules of the data part, of its text and of records, for journeys.py."""
from collections.abc import Sequence
from random import Random

from sdm_evidence.model.data import (
    KIND,
    Area,
    Band,
    Gradient,
    Key,
    Limit,
    National,
    Root,
    StaticSpeed,
    Stop,
    Table,
    Track,
    Train,
)
from sdm_evidence.model.data import keys_of, known_keys
from sdm_evidence.model.journey import Supervisor
from sdm_evidence.makers.toml_text import Raw

# fmt: off
OTHER_KINDS = [Raw("1.0"), Raw('"1"'), Raw("true"), Raw("1"), Raw("[]"), Raw("[1]"), Raw("{}"), Raw("[{}, 1]"),
               Raw("inf"), Raw("1979-05-27"), Raw("07:32:00"), Raw("1979-05-27T07:32:00Z"), Raw("'''end'''"),
               Raw("[[]]")]
# fmt: on
# fmt: off
EXTREMES = [-1, 0, 2**63 - 1, -2**63, Raw("9223372036854775808"), Raw("-9223372036854775809"),
            Raw("0x8000000000000000")]
# fmt: on
LISTS = [("gradient", Gradient), ("speed", StaticSpeed), ("adhesion", Area), ("no_special", Area)]


def version_of(document: Table) -> int:
    """The version of a document, 1 where it has none that is known."""
    return 2 if document.get("version") == 2 else 1


def sections_of(document: Table) -> list[tuple[Table, Sequence[Key]]]:
    """All sections that are tables, with the rows of their keys."""
    found: list[tuple[Table, Sequence[Key]]] = [(document, keys_of(Root))]

    def add(values: object, made: type) -> None:
        entries = values if isinstance(values, list) else []
        found.extend((each, known_keys(made, version_of(document))) for each in entries if isinstance(each, dict))

    train, national, track, authority = (document.get(name) for name in ("train", "national", "track", "authority"))
    if isinstance(train, dict):
        found.append((train, keys_of(Train)))
        add(train.get("band"), Band)
    if isinstance(national, dict):
        found.append((national, keys_of(National)))
    if isinstance(track, dict):
        add([track], Track)
        for name, made in LISTS:
            add(track.get(name), made)
    if isinstance(authority, dict):
        found.append((authority, [KIND, *keys_of(Stop if authority.get("kind") == "end" else Limit)]))
    return found


def spoil_data(rng: Random, document: Table) -> str:
    """One rule broken (or, seldom, none): its name."""
    table, keys = rng.choice(sections_of(document))
    version, key = version_of(document), rng.choice(keys)
    more = ["version"] * (version == 2)
    how = rng.choice(["missing", "unknown", "kind", "value", "value", "value", "list", "list"] + more)
    if how == "version":  # the keys of version 2 aren't known then
        document["version"] = 1
    elif how == "missing":
        table.pop(key.name, None)
    elif how == "unknown":
        table[rng.choice(["more", "loa", "eoa", "Length", "name", "upper", "start"])] = 1
    elif how == "kind":
        table[key.name] = rng.choice(OTHER_KINDS)
    elif how == "value" and key is KIND:
        table["kind"] = rng.choice(["End", "limits", "", "end", "limit"])
    elif how == "value" and key.kind is int:
        if key.name in ("start", "end"):
            length = document.get("track", {}).get("length", 1) if isinstance(document.get("track"), dict) else 1
            table[key.name] = rng.choice([length - 1, length, length + 1, -1, 0] if isinstance(length, int) else [0])
        elif key.name == "service_time":
            table[key.name] = rng.choice([1, 4, 299, 300, 305, -5])
        else:
            unit, most = key.old_unit if version == 1 else 1, key.most
            if key.name == "emergency_reduced" and isinstance(table.get("emergency"), int):
                most = table["emergency"]
            least, most = key.least // unit, most // unit
            table[key.name] = rng.choice([least - 1, least, most, most + 1, rng.choice(EXTREMES)])
    elif how == "list":
        return spoil_list(rng, document, version)
    return f"{how} {key.name}"


def spoil_bands(rng: Random, train: Table, what: str, version: int) -> None:
    """The count of the bands, or an upper speed."""
    bands = train["band"]
    if what == "upper":
        rng.choice([each for each in bands if isinstance(each, dict)])["upper"] = rng.choice([1, 100, 500])
        return
    count = rng.choice([0, 2, 3, 5, 8, *([8, 9] if version == 1 else [10, 11]), 12])
    same = rng.choice([0, rng.randint(1, max(count, 2) - 1)])  # one band not above the one before
    train["band"] = [dict(bands[0], upper=i + 1 - (i == same > 0)) for i in range(count)]
    if count and rng.random() < 0.7:
        del train["band"][-1]["upper"]


def spoil_list(rng: Random, document: Table, version: int) -> str:
    """Counts, orders and gaps of the lists, and of the bands."""
    train, track, later = document.get("train"), document.get("track"), ["no_special"] * (version == 2)
    what = rng.choice(["bands", "upper", "counts", "gap", "equal", "overlap", "kind", "swap"])
    if not (isinstance(train, dict) and isinstance(track, dict) and isinstance(track.get("length"), int)):
        return "list none"
    bands, length = train.get("band"), track["length"]
    if what in ("bands", "upper") and isinstance(bands, list) and bands and isinstance(bands[0], dict):
        spoil_bands(rng, train, what, version)
    elif what == "counts":
        name, most = rng.choice([("gradient", 512), ("speed", 128), ("adhesion", 64)] + [(each, 64) for each in later])
        count = most + rng.choice([0, 1])
        more = {"gradient": {"grad": 0}, "speed": {"speed": 50}}.get(name, {})
        track["length"] = length = max(length, 4 * count)
        track[name] = [
            dict(more, start=2 * i, **({} if more else {"end": 2 * i + rng.choice([1, 2])})) for i in range(count)
        ]
        if rng.random() < 0.2:
            track[name] = []
    elif what == "kind":
        track[rng.choice(["gradient", "speed", "adhesion", *later])] = rng.choice(OTHER_KINDS)
    elif what == "overlap":
        a = rng.randrange(length)
        areas = [
            {"start": a, "end": rng.choice([a, a + 1, length])},
            {"start": min(length - 1, a + rng.choice([0, 1])), "end": rng.choice([length, length + 1])},
        ]
        track[rng.choice(["adhesion", *later]) if later else "adhesion"] = areas
    else:
        entries = track.get(rng.choice(["gradient", "speed"]))
        if isinstance(entries, list) and entries and all(isinstance(each, dict) for each in entries):
            if what == "gap":
                entries[0]["start"] = rng.choice([1, 0, length - 1])
            elif what == "equal":
                entries.append(dict(entries[-1]))
            else:
                entries.reverse()
    return f"list {what}"


def spoil_text(rng: Random, data: bytes) -> tuple[str, bytes]:
    """The text of an input is spoilt."""
    what = rng.choice(["no line", "space", "lone CR", "mark", "twice", "bytes", "cut", "table twice", "early", "CR"])
    if what == "no line":
        data = data.replace(b"%%", b"%")
    elif what == "space":
        data = data.replace(b"%%", rng.choice([b" %%", b"%% ", b"%%%"]))
    elif what == "lone CR":
        data = data.split(b"%%")[0] + b"%%\r"
    elif what == "mark":
        data = data.replace(b"%%", b"\xef\xbb\xbf%%")
    elif what == "twice":
        data = data.replace(b"version", b"version = 1\nversion", 1)
    elif what == "bytes":
        data = rng.choice([b"# \xff\n", b"# \xc0\x80\n", b"# \xed\xa0\x80\n", b"#\x00\n", b"a = \n"]) + data
    elif what == "cut":
        data = data[: rng.randrange(len(data))]
    elif what == "table twice":
        data = data.replace(b"%%", b"[track]\n%%", 1)
    elif what == "early":
        data = rng.choice([b"%%\n", b"%%\r\n", b"\n%%\n"]) + data
    else:
        data = data.replace(b"\n", b"\r", 1)
    return what, data


def spoilt_forms(some: list[str]) -> dict[str, list[list[str]]]:
    """Records whose form is refused, by the fault's name; `some` is a reading that is accepted."""
    # fmt: off
    return {
        "unknown kind": [[""], ["Read"], ["read "], ["x", "1"], ['"\nread', "1"], ["\ufeffrevoke", "1"],
                         ["Endcalc", "0", "0", "0"], ["endcal", "0", "0", "0"]],
        "field count": [["read"], some[:-1], some + ["0"], ["end", "1", "1"], ["revoke"], ["limit", "1", "1", ""],
                        ["endcalc", "1", "1"], ["endcalc", "1", "1", "x", "0"]],
        "not a number": [["read", *first, *["0"] * 5] for first in (
            ["", "0"], ["1.0", "0"], ["+1", "0"], [" 1", "0"], ["0", "--1"], ["0", "1" * 19], ["0", "0x1"])]
        + [["endcalc", "0", "0", ""], ["endcalc", "0", "x", "-1"]],
        "out of range": [
            ["read", "100000001"] + some[2:], ["read", "-1"] + some[2:], some[:2] + ["110000001"] + some[3:],
            some[:2] + ["5", "6", "5"] + some[5:], some[:2] + ["5", "5", "4"] + some[5:],
            some[:5] + ["138889", "0", "0"], some[:6] + ["301", "0"], some[:7] + ["10001"], some[:7] + ["-1"],
            some[:6] + ["-301", "x"], ["end", "10000001", "0", "0"], ["end", "0", "0", "501"], ["limit", "0", "0"],
            ["limit", "0", "501"], ["restrict", "65536", "0", "1", "5", "0"], ["restrict", "0", "0", "1", "0", "0"],
            ["restrict", "0", "0", "1", "5", "2"], ["revoke", "-1"], ["end", "9" * 18, "0", "0"],
            ["endcalc", "0", "0", "10000001"], ["endcalc", "1", "0", "-1"], ["endcalc", "10000001", "0", "0"]],
    }
    # fmt: on


def refused_events(rng: Random, supervisor: Supervisor, time: int) -> dict[str, list[list[str]]]:
    """Records that the supervisor refuses now, by the fault's name."""
    length, held = supervisor.data.track.length, sorted(supervisor.restrictions)
    free = str(next(identity for identity in range(40) if identity not in held))
    last, end = str(length), str(min(10_000_000, length + 1))
    in_use = ["restrict", str(rng.choice(held)), "0", rng.choice(["0", "1"]), "5", "0"] if held else ["revoke", "9"]
    # fmt: off
    return {
        "time back": [["read", str(max(time - 1, 0)), "0", "0", "0", "0", "0", "0"]],
        "before end": [["end", "1", "0", "0"], ["end", last, str(length - 1), "5"], ["end", "10000000", "0", "0"],
                       ["endcalc", "1", "0", "1"], ["endcalc", end, last, "0"]],
        "beyond track": [["end", "0", end, "0"], ["limit", end, "5"], ["end", end, end, "0"],
                         ["endcalc", "1", end, "0"], ["endcalc", end, end, end]],
        "bad trip place": [["endcalc", "1", "1", "0"], ["endcalc", "0", "0", "1"], ["endcalc", "0", last, end],
                           ["endcalc", last, last, str(length - 1)], ["endcalc", "0", last, "10000000"]],
        "restriction value": [["restrict", free, "5", "5", "5", "0"], ["restrict", free, "6", "5", "5", "1"],
                              ["restrict", free, "0", end, "5", "0"]],
        "identity unknown": [["revoke", free]],
        "identity in use": [in_use],
    }
    # fmt: on


def spoilt_record(rng: Random, supervisor: Supervisor, time: int) -> tuple[str, list[str]]:
    """A record that is refused, of a cause that is named. On a track of 100 km one past its end may be accepted."""
    some = ["read", str(time), "0", "0", "0", "0", "0", "0"]
    found = spoilt_forms(some) | refused_events(rng, supervisor, time)
    name = rng.choice(list(found))
    return name, rng.choice(found[name])
