"""Recordings with planted faults: journeys from seeds, and rows of a model that misreads the profile.

A journey has a train that obeys the brakes and a driver who is at times too fast or too late, so that each rule comes
to decide something. What is planted is a change of the model's text, as vectors/maker/misreadings has them, or another
number in the data; a copy of the model that is changed so writes the rows.
"""
import importlib.abc
import importlib.util
import random
import sys
import tomllib
from functools import cache
from pathlib import Path

import sdm_evidence.model
from sdm_evidence.model.data import data_of
from sdm_evidence.model.journey import Supervisor
from sdm_evidence.model.records import event_of
from sdm_evidence.makers.toml_text import toml
from sdm_evidence.model.words import collect

TOP = Path(__file__).resolve().parents[3]
MODEL = Path(sdm_evidence.model.__file__).parent
KM, MM = 100_000, 10  # cm, mm in a cm
CYCLE_DS = 5
NAME = "misread"  # of the package of a model whose texts are changed


def band(rng, upper, emergency):
    """A speed band, in cm/s² and thousandths."""
    own = {} if upper is None else {"upper": upper}
    return own | {
        "emergency": emergency,
        "emergency_reduced": emergency - rng.randrange(10, 25),
        "service": emergency - rng.randrange(18, 30),
        "normal": emergency - rng.randrange(40, 52),
        "kdry": rng.randrange(800, 960),
        "kwet": rng.randrange(850, 980),
        "kn_up": rng.randrange(10, 40),
        "kn_down": rng.randrange(10, 40),
    }


def document(rng, **given):
    """A data part as a table; `given` are keys of the train and the national values that are to be so."""
    flags = {
        name: rng.random() < 0.5
        for name in ("guidance", "early_release", "inhibit_under_reading", "traction_cutoff_interface")
    }
    flags |= {"service_brake": rng.random() < 0.85, "service_in_target": rng.random() < 0.85}
    flags |= {name: value for name, value in given.items() if name in flags}
    length, highest = 4 * KM + rng.randrange(0, KM), rng.randrange(115, 135)
    borders = sorted(rng.sample(range(40_000, length - 30_000), 5))
    grads = [rng.randrange(-140, 90) for _ in range(6)]
    speeds = [rng.choice([100, 120, 140]), rng.choice([80, 90]), rng.choice([110, 130]), rng.choice([70, 100])]
    places = [0, *(rng.randrange(90_000 + 90_000 * i, 130_000 + 90_000 * i) for i in range(3))]
    slippery, unaided = rng.randrange(60_000, 150_000), rng.randrange(200_000, 300_000)
    train = {
        "length": rng.randrange(8_000, 40_000),
        "max_speed": rng.choice([130, 140, 160]),
        "traction_cutoff_time": rng.randrange(10, 60),
        "traction_cutoff_interface": flags["traction_cutoff_interface"],
        "emergency_time": rng.randrange(25, 70),
        "service_time": 5 * rng.randrange(3, 16),
        "service_brake": flags["service_brake"],
        "band": [
            band(rng, rng.randrange(40, 60), highest),
            band(rng, rng.randrange(80, 100), highest - 10),
            band(rng, None, highest - 22),
        ],
    }
    if given.get("rotating_mass", rng.random() < 0.6):
        train["rotating_mass"] = rng.randrange(4, 14)
    return {
        "version": 2,
        "train": train,
        "national": {
            "avadh": rng.randrange(2, 18),
            "adhesion_max": rng.randrange(60, 75),
            **{name: flags[name] for name in ("guidance", "service_in_target", "early_release")},
            "inhibit_under_reading": flags["inhibit_under_reading"],
        },
        "track": {
            "length": length,
            "gradient": [{"start": start, "grad": grad} for start, grad in zip([0, *borders], grads)],
            "speed": [
                {"start": start, "speed": kmh, "delayed": rng.random() < 0.7} for start, kmh in zip(places, speeds)
            ],
            "adhesion": [{"start": slippery, "end": slippery + rng.randrange(20_000, 60_000)}],
            "no_special": [{"start": unaided, "end": unaided + rng.randrange(20_000, 60_000)}],
        },
        "authority": {"kind": "end", "eoa": 150_000, "svl": 155_000, "release": 0},
    }


class Ride:
    """A train on its way over a data part, in mm, mm/s and ds; the model supervises it."""

    def __init__(self, rng, table):
        self.rng, self.table = rng, table
        self.supervisor = Supervisor(data_of(table))
        self.lines, self.time, self.place, self.speed, self.accel = [], 0, 60_000.0, 15_000.0, 0
        self.boldness, self.standing, self.doubt = 0.0, 0, 3_000

    def record(self, *fields):
        self.lines.append(",".join(map(str, fields)))
        return self.supervisor.take(event_of([str(field).encode() for field in fields]))

    def read(self):
        """A reading of the train, with an odometer that is a little off."""
        est = round(self.place) + self.rng.randrange(-400, 400)
        self.doubt = 3_000 if self.rng.random() < 0.01 else min(self.doubt + 15, 20_000)
        speed = 0 if self.speed < 1 else max(round(self.speed) + self.rng.randrange(-40, 40), 1)
        under = 150 + speed // 60
        ends = est - self.doubt, est + round(0.8 * self.doubt)
        return self.record("read", self.time, est, *ends, speed, round(self.accel / 10), under)

    def step(self):
        """Reads, and moves the train on by a cycle as driver or brake have it."""
        cycle = self.read()
        commands, row = cycle.decision.commands, cycle.row
        if self.rng.random() < 0.03:
            self.boldness = self.rng.choice([-0.05, -0.02, 0.0, 0.03, 0.07, 0.12])
        if commands.eb:
            self.accel = -1_050
        elif commands.sb:
            self.accel = -800
        else:
            self.accel = self.driven(row)
        seconds = CYCLE_DS / 10
        after = max(self.speed + self.accel * seconds, 0.0)
        self.place += (self.speed + after) / 2 * seconds
        self.speed, self.time = after, self.time + CYCLE_DS
        self.standing = self.standing + 1 if self.speed == 0 else 0

    def driven(self, row):
        """What the driver asks for, in mm/s²: by the ceiling and the permitted place, or boldly past them."""
        most = (row.ceiling / 3.6 * 1000) * (0.98 + self.boldness)
        permitted = row.limits[3]
        if self.speed == 0:
            return 400 if self.standing > 6 else 0
        if permitted is not None and self.place > permitted - 40_000 * (1 - 12 * self.boldness):
            return -620 if self.boldness < 0.05 else -250
        return 420 if self.speed < most else -300


def events_of(rng, length, release):
    """What comes from the trackside, with the place of the train at which it comes, in cm."""
    restrictions = [
        (70_000, ("restrict", 1, 110_000, 125_000, rng.choice([60, 70]), rng.randrange(2))),
        (190_000, ("revoke", 1)),
        (200_000, ("restrict", 7, 235_000, 260_000, rng.choice([50, 60]), rng.randrange(2))),
    ]
    grown = [(100_000, ("end", 290_000, 296_000, release))]
    last = length - rng.randrange(12_000, 30_000)
    kinds = {
        0: ("end", last, last + rng.randrange(3_000, 8_000), release),
        1: ("endcalc", last, last + 9_000, last + 2_000),
        2: ("limit", last, rng.choice([40, 50])),
    }
    return sorted([*restrictions, *grown, (250_000, kinds[rng.randrange(3)])])


def journey(seed, **given):
    """The input of a journey from a seed, with keys of the data that are given."""
    return ridden(seed, tuple(sorted(given.items())))


@cache
def due_rows(source):
    """The rows of an input."""
    rows, fault, code = collect(["run"], source)
    assert code == 0, fault
    return rows


@cache
def ridden(seed, items):
    given = dict(items)
    rng = random.Random(f"diagnose {seed}")
    table = document(rng, **given)
    ride = Ride(rng, table)
    waiting = events_of(rng, table["track"]["length"], rng.choice([0, 20, 25, 30]))
    while len(ride.lines) < 1_000 and ride.standing < 25:
        while waiting and ride.place >= MM * waiting[0][0]:
            ride.record(*waiting.pop(0)[1])
        ride.step()
        if waiting and ride.standing > 10:
            ride.record(*waiting.pop(0)[1])
            ride.standing = 0
    return (toml(table) + "%%\n" + "".join(line + "\n" for line in ride.lines)).encode()


class Misread(importlib.abc.MetaPathFinder, importlib.abc.Loader):
    """Imports the model a second time, under another name and with some of its texts changed."""

    def __init__(self, misreadings):
        self.texts = {path.stem: path.read_text() for path in MODEL.glob("*.py")}
        for module, text, misread in misreadings:
            assert text in self.texts[module], f"{module} has no {text!r} any more"
            self.texts[module] = self.texts[module].replace(text, misread, 1)

    def find_spec(self, name, path=None, target=None):
        package, _, module = name.partition(".")
        if package != NAME:
            return None
        return importlib.util.spec_from_loader(name, self, is_package=not module)

    def exec_module(self, module):
        stem = module.__name__.partition(".")[2] or "__init__"
        exec(compiled(stem, self.texts[stem].replace(sdm_evidence.model.__name__, NAME)), module.__dict__)


@cache
def compiled(stem, text):
    return compile(text, f"misread/{stem}.py", "exec")


def rows_by(source, misreadings=()):
    """The rows that a model with some of its texts changed writes for an input: each is a module, a text, and what is
    put there. Raises AssertionError where it refuses the input."""
    finder = Misread(misreadings)
    sys.meta_path.insert(0, finder)
    try:
        rows, fault, code = importlib.import_module(f"{NAME}.words").collect(["run"], source)
    finally:
        sys.meta_path.remove(finder)
        for each in [each for each in sys.modules if each.partition(".")[0] == NAME]:
            del sys.modules[each]
    assert code == 0, fault
    return rows


def recording_of(rows, seed=0, noise=0):
    """Rows as another computer's recording, in the columns of a row; places up to so many mm off."""
    rng = random.Random(f"noise {seed}")
    lines = []
    for row in rows.splitlines():
        fields = row.split(",")
        places = [place if place == "-" else str(int(place) + rng.randint(-noise, noise)) for place in fields[8:]]
        lines.append(",".join(fields[:6] + [fields[7]] + places))
    head = "time,state,status,tco,sb,eb,ceiling,ebi,sbi,warning,permitted,indication\n"
    return (head + "".join(line + "\n" for line in lines)).encode()


def changed(source, path, change, rng):
    """An input with another number in its data part: the input, the number that was there and the other one."""
    table = tomllib.loads(source.decode().partition("%%\n")[0])
    place = table
    for name in path[:-1]:
        place = place[name]
    given = place[path[-1]]
    place[path[-1]] = change(rng, given)
    return toml(table).encode() + b"%%\n" + source.partition(b"%%\n")[2], given, place[path[-1]]


class Plant:
    """A journey with faults planted: the input, the rows that are due, and the rows as they were recorded."""

    def __init__(self, seed, kinds, given=None):
        """`given` are keys of the data that the journey is to have; those of the kinds where they aren't given."""
        self.source, self.values = journey(seed, **(given_of(kinds) if given is None else given)), {}
        other = self.source
        for kind in kinds:
            if kind.number:
                rng = random.Random(f"plant {seed}")
                other, _, self.values[kind.due[0]] = changed(other, *kind.number, rng)
        self.rows = due_rows(self.source)
        self.recorded = rows_by(other, [text for kind in kinds for text in kind.texts])
        self.recording = recording_of(self.recorded, seed, 1)

    def differing(self):
        """How many rows differ."""
        return differing(self.rows, self.recorded)


def given_of(kinds):
    """The keys of the data that journeys of some kinds are to have."""
    return {name: value for kind in kinds for name, value in kind.given.items()}


def differing(rows, others):
    """In how many rows, whatever they say of covered."""
    pairs = zip(rows.splitlines(), others.splitlines(), strict=True)
    return sum(without_covered(one) != without_covered(other) for one, other in pairs)


def without_covered(row):
    fields = row.split(",")
    return fields[:6] + fields[7:]


def left_out(seed, kinds, kind):
    """The plant of the other kinds in the same journey."""
    return Plant(seed, [each for each in kinds if each is not kind], given_of(kinds))


def shown_by(kinds, first, least=3):
    """The first plant from a seed on in which each of the kinds changes so many rows, whatever the others change."""
    for seed in range(first, first + 90):
        try:
            plant = Plant(seed, kinds)
            without = [plant.rows] if len(kinds) == 1 else [left_out(seed, kinds, kind).recorded for kind in kinds]
        except (KeyError, AssertionError):
            continue  # the other number is refused, or the journey has no such number
        if all(differing(plant.recorded, other) >= least for other in without):
            return seed, plant
    raise LookupError(f"{[kind.name for kind in kinds]} don't show")
