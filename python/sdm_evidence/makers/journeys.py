"""A maker of journeys that tell, from a seed: same seed, same bytes. What they must lead to is said by the model.

Even seeds make data parts of version 1, odd ones of version 2, and a part of these `upgrade`. Trains of nine and ten
bands are of odd seeds alone.

    tools/journeys folder DIR FIRST COUNT   a folder for each seed, as in examples/
    tools/journeys lines FIRST COUNT        a line of JSON for each seed, to standard output
    tools/journeys input SEED               the input of one seed
    tools/journeys drive SEED               the input of its drive
    tools/journeys falls SEED               the input of its journey with many falls
    tools/journeys line SEED KM             the input of a run over a line of so many km, 2 to 95
    tools/journeys specials DIR             a folder for each input at the limits of the formats

A line has `seed`, `name` (what the journey is about), `args`, `input` (base64), `rows`, `err`, `code`.
"""
import base64
import json
import random
import sys
from collections.abc import Callable
from pathlib import Path
from random import Random
from typing import Any

from sdm_evidence.makers.aimed import Maker
from sdm_evidence.model.data import Limit, Stop, data_of
from sdm_evidence.makers.documents import SPEEDS, UPPERS, a_document, a_grad, an_open_document, some_starts
from sdm_evidence.model.journey import Supervisor
from sdm_evidence.makers.line import a_run
from sdm_evidence.makers.many_falls import over_many_falls
from sdm_evidence.model.outcome import Outcome, Refused
from sdm_evidence.model.records import Calculated, Reading, Restriction, Revocation
from sdm_evidence.model.release import release_start
from sdm_evidence.makers.spoilt import spoil_data, spoil_text, spoilt_record
from sdm_evidence.makers.toml_text import toml
from sdm_evidence.model.units import GRAINS_PER_MM
from sdm_evidence.model.words import collect

from sdm_evidence.model.data import Table
from sdm_evidence.model.records import Event

# fmt: off
KIND_OF = {Reading: "read", Stop: "end", Calculated: "endcalc", Limit: "limit", Restriction: "restrict",
           Revocation: "revoke"}
# fmt: on


def record(event: Event) -> list[str]:
    return [KIND_OF[type(event)]] + [str(number) for number in event]


def record_text(rng: Random, fields: list[str], plain: bool) -> str:
    """A record, in odd spellings where it isn't to be plain."""
    if plain or rng.random() < 0.5:
        return ",".join(fields)
    odd = []
    for field in fields:
        how = rng.random()
        if field.isdigit() and how < 0.2:
            field = field.zfill(rng.choice([len(field) + 1, 18, 18]) if rng.random() < 0.98 else 19)
        elif field == "0" and how < 0.5:
            field = "-0"
        odd.append(
            f'"{field}"'
            if rng.random() < 0.2
            else field[:0] + '"' + field[:1] + '"' + field[1:]
            if rng.random() < 0.1
            else field
        )
    return ",".join(odd)


def input_of(rng: Random, document: Table, records: list[list[str]]) -> bytes:
    """The bytes of an input: the data part, the dividing line, the records."""
    plain = rng.random() < 0.6
    end = "\n" if plain else rng.choice(["\n", "\r\n"])
    text = toml(document, rng if not plain else None)
    lines = [record_text(rng, fields, plain) for fields in records]
    if not plain:
        end_of_record = rng.choice(["\n", "\r\n", "\r", "\n\n"])
        records_text = rng.choice(["", "\ufeff"]) + end_of_record.join(lines) + rng.choice(["", end_of_record])
        return (rng.choice(["", "\ufeff"]) + text.replace("\n", end) + "%%" + end + records_text).encode()
    return (text + "%%\n" + "".join(line + "\n" for line in lines)).encode()


def a_journey(rng: Random, version: int) -> tuple[str, bytes]:
    document, supervisor = an_open_document(rng, version)
    maker = Maker(rng, supervisor)
    records = [record(event) for event in maker.make(rng.randint(10, 22))]
    name = "journey"
    if rng.random() < 0.3:
        name, refused = spoilt_record(rng, supervisor, maker.time)
        records += [refused, record(maker.next_reading())]
    return name, input_of(rng, document, records)


def a_grain_document(rng: Random, version: int) -> Table:
    """Level track and bands of one deceleration: many exact limits are whole millimetres (PROFILE "Curves")."""
    document = a_document(rng, version)
    a, train = rng.choice([50, 70, 70, 100, 100, 90, 60]), document["train"]
    slow = rng.choice([15, 24, 33, 60, 78])  # a target, with an upper speed between it and its foot speed
    uppers = {*rng.sample(UPPERS[:12], rng.choice([0, 1, 2, 3] + [8] * (version - 1))), slow + rng.randint(1, 7)}
    train |= {
        "max_speed": 300,
        "rotating_mass": rng.choice([0, 9]),
        "traction_cutoff_time": rng.choice([0, 0, 20]),
        "emergency_time": rng.choice([0, 0, 20]),
        "service_time": rng.choice([0, 0, 40]),
    }
    band = {"emergency": a, "service": a, "normal": a, "kdry": 1000, "kwet": 1000, "kn_up": 0, "kn_down": 0}
    train["band"] = [{"upper": upper} | band for upper in sorted(uppers)] + [band]
    starts = (150_000, rng.choice([180_000, 250_000]))
    document["track"] = {
        "length": 300_000,
        "speed": [{"start": 0, "speed": 300}]
        + [{"start": start, "speed": rng.choice([15, 24, slow, slow, 120])} for start in starts],
    }
    # fmt: off
    document["authority"] = rng.choice([{"kind": "end", "eoa": 200_000, "svl": rng.choice([200_000, 210_000]),
                                         "release": rng.choice([0, 0, 9, 18, 36])},
                                        {"kind": "limit", "loa": 200_000, "speed": slow}])
    # fmt: on
    return document


def a_grain_journey(rng: Random, version: int) -> tuple[str, bytes]:
    """Readings at exact limits that are whole millimetres, and around the start of release speed monitoring."""
    document = a_grain_document(rng, version)
    supervisor = Supervisor(data_of(document))
    maker = Maker(rng, supervisor)
    for _ in range(rng.randint(8, 16)):
        if supervisor.commands.eb:
            maker.accel = maker.under = 0
            maker.add(maker.standing())
        if rng.random() < 0.1:
            maker.add(maker.a_calculated(200_000, rng.choice([210_000, 240_000])))
        start = release_start(supervisor.times, supervisor.curves, supervisor.authority)
        if start is not None and rng.random() < 0.2:
            mm = -(-start // GRAINS_PER_MM) + rng.choice([-1, 0, 0, 1])
            maker.add(maker.reading(max_mm=mm, speed=rng.choice([1_000, maker.a_speed()])))
        else:
            maker.add(maker.at_a_grain() if rng.random() < 0.8 else maker.at_a_place())
    return "grain", input_of(rng, document, [record(event) for event in maker.events])


def a_full_journey(rng: Random, version: int) -> tuple[str, bytes]:
    """As many restrictions as may be held, and one more, or one in place of another."""
    document, supervisor = an_open_document(rng, version)
    maker, length = Maker(rng, supervisor), supervisor.data.track.length
    for identity in rng.sample(range(100), 32):
        a = rng.randrange(length)
        maker.add(Restriction(identity, a, rng.randint(a + 1, length), rng.choice(SPEEDS), rng.randint(0, 1)))
    maker.add(maker.next_reading())
    if rng.random() < 0.5:
        maker.add(Revocation(rng.choice(list(supervisor.restrictions))))
        maker.add(maker.next_reading())
        maker.add(Restriction(500, 0, 1, 5, 0))
    records = [record(event) for event in maker.make(4)]
    last = Restriction(rng.choice([1000, next(iter(supervisor.restrictions), 1)]), 0, rng.choice([0, 1]), 5, 0)
    return "too many restrictions", input_of(rng, document, records + [record(last)])


def refused_data(rng: Random, version: int) -> tuple[str, bytes]:
    """One or two rules of the data part broken, or its text."""
    document, supervisor = an_open_document(rng, version)
    names = []
    for _ in range(rng.choice([1, 1, 2])):
        names.append(spoil_data(rng, document))
    data = input_of(rng, document, [["read", "0", "0", "0", "0", "0", "0", "0"]])
    if rng.random() < 0.15:
        name, data = spoil_text(rng, data)
        names.append(name)
    return "data: " + " and ".join(names), data


def steep_gradients(rng: Random, length: Any, version: Any) -> list[Table]:
    """A gradient that isn't steep downhill, and then some of any steepness."""
    unit = 1 if version == 1 else 10
    first = {"start": 0, "grad": rng.randint(-10 * unit, 80 * unit)}
    return [first] + [
        {"start": start, "grad": a_grad(rng, 80, version)} for start in some_starts(rng, 3, length, 100)[1:]
    ]


def refused_opening(rng: Random, version: int) -> tuple[str, bytes]:
    """Slopes or authority at the border of what is refused, on both sides of it."""
    document, supervisor = an_open_document(rng, version)
    train, track, national = document["train"], document["track"], document["national"]
    more = ["special brake"] * (version == 2)
    name = rng.choice(["adhesion", "steep", "weak band", "varied", "authority", "authority"] + more)
    if name == "adhesion":
        start = rng.randrange(track["length"])
        track["adhesion"] = [{"start": start, "end": track["length"]}]
        national["adhesion_max"] = rng.choice([1, 4, 5, 6, 8, 12])
    elif name == "steep":
        track["gradient"] = steep_gradients(rng, track["length"], version)
    elif name == "special brake":
        start = rng.randrange(track["length"])
        track["no_special"] = [{"start": start, "end": track["length"]}]
        band = rng.choice(train["band"])
        band["emergency_reduced"] = min(band["emergency"], rng.choice([1, 4, 5, 6, 8, 12]))
    elif name == "weak band":
        rng.choice(train["band"])[rng.choice(["emergency", "service", "normal"])] = rng.choice([1, 4, 5, 6, 8])
    elif name == "varied":
        track["gradient"], track["adhesion"] = [], [{"start": 0, "end": 1}]
        train["length"], national["adhesion_max"] = 1, rng.choice([5, 6, 10])
        band, variation = rng.choice(train["band"]), 16 if len(train["band"]) <= 8 else 8
        band |= {"kdry": 1000, "kwet": 1000}
        band["emergency"] = variation * national["adhesion_max"] + rng.choice([-1, 0, 1])
    else:
        length = track["length"]
        eoa = rng.choice([0, length, length - 1])
        svl = rng.choice([eoa, eoa - 1, length, length + 1])
        document["authority"] = rng.choice(
            [
                {"kind": "end", "eoa": eoa, "svl": max(0, svl)},
                {"kind": "limit", "loa": length + rng.choice([0, 1]), "speed": 30},
            ]
        )
    events = []
    try:
        supervisor = Supervisor(data_of(document))
        events = Maker(rng, supervisor).make(5)
    except (Refused, Outcome):
        pass
    return f"opening: {name}", input_of(rng, document, [record(event) for event in events])


def flat(rng: Random) -> tuple[list[str], str, bytes]:
    """Lines of `flat` on the curve, and one beside it, with faults of lines."""
    A, END = rng.choice([5, 70, 100, 400, rng.randint(5, 400)]), rng.choice([0, 100_000, rng.randint(0, 10_000_000)])
    lines, time = [], 0
    for _ in range(rng.randint(0, 12)):
        speed = rng.choice([0, 0, 1, 10_000, rng.randint(0, 138_888), rng.randint(0, 5_000)])
        place = 10 * END - speed * speed * 100 // (2 * 1000 * A) * 1
        front = rng.choice([place, 10 * END]) + rng.choice([-1, 0, 0, 1, 1, 2])
        lines.append(f"{time},{min(max(front, -10_000_000), 110_000_000)},{speed}")
        time += rng.choice([0, 1, 5])
    if rng.random() < 0.3:
        lines.insert(
            rng.randint(0, len(lines)),
            rng.choice(
                [
                    "",
                    "0,0",
                    "0,0,0,0",
                    "0,0,138889",
                    "-1,0,0",
                    "0,-10000001,0",
                    "0, 0,0",
                    '"0",0,0',
                    "0,0,0\r",
                    "0,+1,0",
                    "100000001,0,0",
                    "0,110000001,0",
                    "0,0,-1",
                    "0,0,1.0",
                ]
            ),
        )
    words = ["flat", rng.choice(["", "0"]) + str(A), str(END)]
    return words, "flat", ("\n".join(lines) + rng.choice(["", "\n"] if lines else [""])).encode()


def upgraded(rng: Random) -> tuple[list[str], str, bytes]:
    """A data part of either version alone, at times with a rule broken or with a dividing line."""
    document, _ = an_open_document(rng, rng.choice([1, 1, 2]))
    if rng.random() < 0.3:
        spoil_data(rng, document)
    data = input_of(rng, document, [["read", "0"]])
    if rng.random() < 0.95:
        data = data[: data.index(b"%%")]
    return ["upgrade"], "upgrade", data


def a_drive(seed: int) -> tuple[list[str], bytes]:
    """A drive of a seed: words, and a data part alone, of which most can be driven and come to their end."""
    rng, version = random.Random(f"drive {seed}"), 1 + seed % 2
    document, _ = an_open_document(rng, version)
    train, track = document["train"], document["track"]
    if rng.random() < 0.95:
        train["emergency_time"] = max(train["emergency_time"], 5)
    if rng.random() < 0.95:
        eoa = min(rng.choice([0, 500, 20_000, 60_000, track["length"]]), track["length"])
        document["authority"] = {"kind": "end", "eoa": eoa, "svl": rng.randint(eoa, min(eoa + 5_000, track["length"]))}
    words = ["drive", str(rng.randint(0, 65_535)), str(rng.randint(1, 300))]
    return words, toml(document, rng if rng.random() < 0.3 else None).encode()


def a_fall_journey(seed: int) -> tuple[list[str], bytes]:
    """A journey of a seed with many falls: words and input."""
    rng = random.Random(f"falls {seed}")
    document, events = over_many_falls(rng, 1 + seed % 2)
    return ["run"], input_of(rng, document, [record(event) for event in events])


def make(seed: int) -> tuple[list[str], str, bytes]:
    """The journey of a seed: words, what it is about, input."""
    rng, version = random.Random(seed), 1 + seed % 2
    how = rng.random()
    if version == 2 and how < 0.06:
        return upgraded(rng)
    if how < 0.72:
        return ["run"], *a_journey(rng, version)
    if how < 0.76:
        return ["run"], *a_grain_journey(rng, version)
    if how < 0.79:
        return ["run"], *a_full_journey(rng, version)
    if how < 0.90:
        return ["run"], *refused_data(rng, version)
    if how < 0.96:
        return ["run"], *refused_opening(rng, version)
    if how < 0.99:
        return flat(rng)
    if how < 0.995:
        return ["trial", str(rng.randint(0, 65_535)), str(rng.randint(1, 40))], "trial", b""
    others: list[list[str]] = [
        ["run", ""],
        ["flat", "4", "5"],
        ["flat", "401", "5"],
        ["flat", "5"],
        ["trial", "65536", "1"],
        ["trial", "1", "0"],
        ["trial", "1", "100001"],
        ["-h"],
        [],
        ["flat", "5", "10000001"],
        ["flat", "5", "-1"],
        ["Run"],
        ["trial", "+1", "1"],
    ]
    return rng.choice(others + [["upgrade", "1"], ["Upgrade"]] * int(version == 2)), "words", b"%%\n"


OF_SEED: dict[str, Callable[[int], tuple[Any, ...]]] = {"input": make, "drive": a_drive, "falls": a_fall_journey}


def specials() -> list[tuple[str, bytes]]:
    """Inputs at the limits of FORMATS that are too large for every hundredth seed: name and input."""
    document = a_document(random.Random(4))
    document["authority"] = {"kind": "limit", "loa": document["track"]["length"], "speed": 100}
    head, most, reading = (toml(document) + "%%\n").encode(), 16_777_216, b"read,0,0,0,0,0,0,0\n"
    limit = f"limit,{document['track']['length']},5\n".encode()
    deep = {n: b"more = " + b"[" * n + b"]" * n + b"\n" + head for n in (80, 81)}
    return [
        ("records 100000", head + reading + limit * 99_998 + reading),
        ("records 100001", head + reading + limit * 99_999 + reading * 2),
        ("bytes 16777216", head + reading + b"\n" * (most - len(head + reading))),
        ("bytes 16777217", head + reading + b"\n" * (most + 1 - len(head + reading))),
        ("nested 80", deep[80]),
        ("nested 81", deep[81]),
        ("key of 80 parts", b"a." * 79 + b"a = 1\n" + head),
    ]


def write_folder(folder: Path, words: list[str], name: str, data: bytes) -> None:
    rows, err, code = collect(words, data)
    folder.mkdir(parents=True, exist_ok=True)
    (folder / "args").write_text("".join(word + "\n" for word in words))
    (folder / "input").write_bytes(data)
    (folder / "rows").write_text(rows)
    if code:
        (folder / "err").write_text(err)
        (folder / "code").write_text(f"{code}\n")


def main(words: list[str]) -> int:
    if len(words) == 2 and words[0] in OF_SEED:
        sys.stdout.buffer.write(OF_SEED[words[0]](int(words[1]))[-1])
        return 0
    if len(words) == 3 and words[0] == "line" and 2 <= int(words[2]) <= 95:
        sys.stdout.buffer.write(a_run(int(words[1]), int(words[2])))
        return 0
    if len(words) == 2 and words[0] == "specials":
        for name, data in specials():
            write_folder(Path(words[1]) / name.replace(" ", "-"), ["run"], name, data)
        return 0
    if not (len(words) == 4 and words[0] == "folder" or len(words) == 3 and words[0] == "lines"):
        raise SystemExit(__doc__)
    first, count = int(words[-2]), int(words[-1])
    for seed in range(first, first + count):
        args, name, data = make(seed)
        if words[0] == "folder":
            write_folder(Path(words[1]) / f"{seed:06}", args, name, data)
        else:
            rows, err, code = collect(args, data)
            print(
                json.dumps(
                    {
                        "seed": seed,
                        "name": name,
                        "args": args,
                        "input": base64.b64encode(data).decode(),
                        "rows": rows,
                        "err": err,
                        "code": code,
                    }
                )
            )
    return 0
