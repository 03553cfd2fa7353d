"""data/, openings/, records/, texts/ and words/: each refusal, what is just accepted, and other spellings."""

from sdm_evidence.model.data import (KIND, REFUSED, Area, Band, Gradient, Limit, National, Root, StaticSpeed, Stop, Track, Train,
                        keys_of, known_keys)
from sdm_evidence.makers.toml_text import Raw, toml

from .plain import KM, Journey, limit, plain, stop

READ = "read,0,0,0,0,0,0,0"
FULL = {"gradient": [{"start": 0, "grad": 0}, {"start": 5, "grad": 1}], "adhesion": [{"start": 3, "end": 9}],
        "speed": [{"start": 0, "speed": 160}, {"start": 7, "speed": 100, "delayed": False}]}
BANDS = [{"upper": 50}, {"upper": 100}, {}]


def full(authority=None):
    """A data part in which every key stands."""
    return plain(bands=BANDS, track=FULL, authority=authority or stop(5 * KM, 0, 10))


def text(document, records=(READ,)):
    return (toml(document) + "%%\n" + "".join(line + "\n" for line in records)).encode()


def changed(document, changes):
    """A data part with values changed by their paths, or taken out where they are REFUSED."""
    for (*way, last), value in changes:
        table = document
        for step in way:
            table = table[step]
        if value is REFUSED:
            del table[last]
        else:
            table[last] = value
    return document


def spoilt(path, value, authority=None):
    """The full data part with one value changed, or taken out where it is REFUSED."""
    return text(changed(full(authority), [(path, value)]))


PLACES = [((), keys_of(Root)), (("train",), keys_of(Train)), (("train", "band", 1), known_keys(Band, 1)),
          (("national",), keys_of(National)), (("track",), known_keys(Track, 1)),
          (("track", "gradient", 1), keys_of(Gradient)), (("track", "speed", 1), keys_of(StaticSpeed)),
          (("track", "adhesion", 0), keys_of(Area)), (("authority",), [KIND, *keys_of(Stop)]), (("authority",), keys_of(Limit))]
OTHER = {int: [Raw("1.0"), Raw('"1"'), True], bool: [1, Raw('"true"')], str: [5], dict: [1, Raw("[]")], list: [1, Raw("{}"), Raw("[1]")]}


def keys():
    """For each key one refusal, turning from key to key: out of range to either side, of another kind, missing."""
    for turn, (way, key) in enumerate((way, key) for way, keys in PLACES for key in keys):
        authority = limit(5 * KM, 60) if key in keys_of(Limit) else None
        name = "-".join([str(step) for step in way if not isinstance(step, int)] + [key.name])
        most = 10 * KM if key.name in ("start", "end") else key.most // key.old_unit
        least = 4 if key.name == "end" else key.least // key.old_unit
        if key.kind is int and key.name != "version":
            value, shows = (least - 1, "below its range") if turn % 2 else (most + (key.name == "end" or key.name != "start"), "above its range")
        elif turn % 3 or key.absent is not REFUSED:
            value, shows = OTHER[key.kind][turn % len(OTHER[key.kind])], "of another kind"
        else:
            value, shows = REFUSED, "missing"
        yield name, f"`{key.name}` is {shows}", spoilt((*way, key.name), value, authority)


def unknown_keys():
    """A key that isn't listed, in each section."""
    for way, section in PLACES:
        authority = limit(5 * KM, 60) if section is keys_of(Limit) else None
        name = "-".join([str(step) for step in way if not isinstance(step, int)] or ["root"]) + ("-limit" if authority else "")
        yield f"{name}-unknown-key", "a key that isn't listed", spoilt((*way, "more"), 1, authority)


def lists():
    """Counts, gaps and orders of lists and bands."""
    level = [{"start": i, "grad": 0} for i in range(513)]
    areas = [{"start": 2 * i, "end": 2 * i + 1} for i in range(65)]
    for name, shows, change in [
        ("gradients-too-many", "513 gradients", {"gradient": level}),
        ("speeds-too-many", "129 speeds", {"speed": [{"start": i, "speed": 9} for i in range(129)]}),
        ("speeds-too-few", "no speed", {"speed": []}),
        ("areas-too-many", "65 areas", {"adhesion": areas}),
        ("gradient-gap", "gradients that don't begin at 0", {"gradient": [{"start": 1, "grad": 0}]}),
        ("speed-gap", "speeds that don't begin at 0", {"speed": [{"start": 1, "speed": 9}]}),
        ("gradient-order", "two gradients that begin at one place", {"gradient": level[:2] + [{"start": 1, "grad": 5}]}),
        ("speed-order", "speeds in falling order", {"speed": [{"start": s, "speed": 9} for s in (0, 9, 8)]}),
        ("area-empty", "an area that ends where it begins", {"adhesion": [{"start": 5, "end": 5}]}),
        ("area-order", "an area that begins before the end of the one before", {"adhesion": [
            {"start": 5, "end": 9}, {"start": 8, "end": 12}]}),
    ]:
        yield name, shows, text(plain(track=change))
    for name, shows, uppers in [
        ("bands-none", "no band", []),
        ("band-order", "a band whose upper speed is that of the one before", [50, 50, None]),
        ("band-without-upper", "a band that isn't the last has no upper speed", [50, None, None]),
        ("last-band-with-upper", "the last band has an upper speed", [50, 90]),
    ]:
        document = plain(bands=[{} if upper is None else {"upper": upper} for upper in uppers] or None)
        if not uppers:
            document["train"]["band"] = Raw("[]")
        yield name, shows, text(document)
    yield "service-time-step", "a `service_time` that is no multiple of 5", spoilt(("train", "service_time"), 12)
    yield "kind-value", "a `kind` that is neither `end` nor `limit`", spoilt(("authority", "kind"), "stop")


def orders():
    """Two rules broken at once: which of them is named."""
    for name, shows, changes in [
        ("version-before-train", "the range of `version` comes before a missing `train`", [(("version",), 3), (("train",), REFUSED)]),
        ("unknown-before-version", "an unknown key comes before the range of `version`", [(("more",), 1), (("version",), 3)]),
        ("kinds-before-ranges", "a wrong kind in the track comes before a range of the train",
         [(("train", "length"), 0), (("track", "length"), True)]),
        ("authority-before-train", "a range of the authority comes before one of the train",
         [(("train", "length"), 0), (("authority", "eoa"), -1)]),
        ("key-by-key", "a key of another kind comes before a later one that is missing",
         [(("national", "avadh"), True), (("national", "guidance"), REFUSED)]),
        ("numbers-before-order", "the numbers of all bands come before their order",
         [(("train", "band", 0, "upper"), 100), (("train", "band", 2, "kwet"), 0)]),
        ("train-before-national", "a range of the train comes before one of the national values",
         [(("national", "avadh"), 21), (("train", "max_speed"), 501)]),
        ("list-by-list", "each list whole, before the count of the next",
         [(("track", "speed"), []), (("track", "gradient", 1, "start"), 0)]),
        ("values-before-gap", "all values of a list come before its gap", [(("track", "gradient", 0, "start"), 1), (("track", "gradient", 1, "grad"), 81)]),
        ("kind-first", "`kind` comes before an unknown key", [(("authority", "more"), 1), (("authority", "kind"), 3)]),
    ]:
        yield name, shows, text(changed(full(), changes))


def accepted():
    """Data whose numbers are all the least, or all the most, that is accepted."""
    least = plain({"length": 1, "max_speed": 1, "rotating_mass": 0}, [{"upper": 1, "emergency": 5, "service": 5, "normal": 5}, {
        "emergency": 5, "service": 5, "normal": 5}], {"avadh": 0, "adhesion_max": 5}, {"length": 1, "speed": [{"start": 0, "speed": 1}],
        "gradient": [{"start": 0, "grad": 0}], "adhesion": [{"start": 0, "end": 1}]}, stop(0, 0, 0))
    yield "all-least", "every number is the least that is accepted", Journey(least, home_mm=-1_000).read(0).read(100).spoilt(
        "read,10,-10000000,-10000000,-10000000,0,-300,0").spoilt("restrict,0,0,1,1,0").spoilt("revoke,0").spoilt("end,0,0,0").spoilt("limit,0,1").spoilt("read,10,0,0,0,1,-300,0")
    bands = [{"upper": upper} for upper in (10, 20, 30, 40, 50, 60, 70, 80, 499)] + [{}]
    strong = [band | {"emergency": 400, "service": 400, "normal": 400, "kn_up": 1000, "kn_down": 1000} for band in bands]
    most = plain({"length": 150_000, "max_speed": 500, "rotating_mass": 50, "traction_cutoff_time": 300, "emergency_time": 300,
                  "service_time": 300}, strong, {"avadh": 20, "adhesion_max": 400, "guidance": True},
                 {"length": 100 * KM, "speed": [{"start": 100 * i, "speed": 500} for i in range(128)],
                  "gradient": [{"start": 0, "grad": -80}] + [{"start": i, "grad": 80} for i in range(1, 512)],
                  "adhesion": [{"start": 2 * i, "end": 2 * i + 2} for i in range(64)]}, stop(100 * KM, 0, 500))
    yield "all-most", "every number and every count is the most that is accepted", Journey(most).read(138_888, a=300, u=10_000).spoilt(
        "read,100000000,110000000,110000000,110000000,0,300,10000").spoilt("restrict,65535,9999999,10000000,500,1").spoilt(
        "revoke,65535").spoilt("end,10000000,10000000,500").spoilt("limit,10000000,500").spoilt("read,100000000,110000000,110000000,110000000,1,0,0")


def data():
    yield from keys()
    yield from unknown_keys()
    yield from lists()
    yield from orders()
    for name, shows, journey in accepted():
        yield name, shows, journey.input()


def openings():
    """Slopes and authorities on both sides of what is refused."""
    short = {"length": 1}
    downhill = {"gradient": [{"start": 0, "grad": 0}, {"start": 9_000, "grad": -80}]}
    cases = [
        ("weak-safe", "too weak on reduced adhesion", plain(track=FULL, national={"adhesion_max": 4})),
        ("weak-expected", "the service brake too weak downhill, in the second band",
         plain(bands=[{"upper": 50}, {"service": 80}], track=downhill)),
        ("weak-normal", "normal service braking too weak by Kn", plain(bands=[{"normal": 30, "kn_up": 1000}], track={"gradient": [
            {"start": 0, "grad": 80}, {"start": 700, "grad": 0}]} | {"length": 10 * KM}, train={"rotating_mass": 50})),
        ("weak-band-first", "a weaker cell in a higher band isn't named", plain(
            bands=[{"upper": 50, "emergency": 80}, {"emergency": 70}], track=downhill)),
        ("least-accepted-slope", "exactly 0.05 m/s² is accepted", plain(short, [{"emergency": 5, "service": 5, "normal": 5}])),
        ("weak-below", "below 0.05 m/s² by a notch of avadh", plain(short, [{"emergency": 5, "kwet": 999}], {"avadh": 19})),
        ("weak-past-the-track", "a slope past the track's end is refused too", plain(
            {"length": 30_000}, [{"emergency": 60}], track={"length": 50_000, "gradient": [{"start": 0, "grad": 0}, {"start": 49_999, "grad": -60}]},
            authority=stop(40_000))),
        ("greatest-accepted-variation", "exactly sixteenfold is accepted", plain(short, [{"emergency": 160}], {"adhesion_max": 10}, {"adhesion": [{"start": 0, "end": 1}]})),
        ("varied", "more than sixteenfold", plain(short, [{"emergency": 161}], {"adhesion_max": 10}, {"adhesion": [{"start": 0, "end": 1}]})),
        ("varied-band-two", "more than sixteenfold in the second band", plain(short, [{"upper": 9}, {"emergency": 100}], {"adhesion_max": 6},
                                                                             {"adhesion": [{"start": 5, "end": 6}]}) | {}),
        ("weak-before-varied", "of one kind, too weak comes before too varied", plain(short, [{"upper": 9, "emergency": 320}, {"emergency": 4}],
                                                                                     {"adhesion_max": 10}, {"adhesion": [{"start": 0, "end": 1}]})),
        ("varied-before-weak-of-the-next", "safe is whole before expected", plain(short, [{"emergency": 200, "service": 4}], {"adhesion_max": 10},
                                                                                {"adhesion": [{"start": 0, "end": 1}]})),
        ("unused-normal", "normal is asked without guidance too", plain(bands=[{"normal": 4}])),
        ("before-end", "an SvL before the EOA", plain(authority=stop(KM, -1))),
        ("beyond-track", "an SvL past the track's end", plain(authority=stop(10 * KM, 1))),
        ("at-the-track-s-end", "an SvL at the track's end is accepted", plain(authority=stop(10 * KM))),
        ("limit-beyond-track", "an LOA past the track's end", plain(authority=limit(10 * KM + 1, 50))),
        ("slopes-before-authority", "the slopes come before the authority", plain(bands=[{"service": 4}], authority=stop(KM, -1))),
        ("before-end-before-beyond", "the order of the ends comes before the track's end", plain(authority={"kind": "end", "eoa": 99 * KM, "svl": 98 * KM})),
    ]
    for name, shows, document in cases:
        yield name, shows, text(document)
