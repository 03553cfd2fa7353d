"""Makes data parts as tables, from a random generator, for journeys.py and aimed.py."""
from random import Random

from sdm_evidence.model.data import Table, data_of
from sdm_evidence.model.journey import Supervisor
from sdm_evidence.model.outcome import Refused

# km/h whose limits with a margin are whole mm/s (v ≡ 5, 6, 8, 0 mod 9), common ones, and the bends of the margins
# fmt: off
SPEEDS = [5, 6, 9, 14, 15, 18, 24, 30, 36, 40, 50, 51, 59, 60, 62, 72, 80, 90, 100, 105, 109, 110, 111, 120, 125, 130,
          139, 140, 141, 144, 160, 170, 180, 182, 200, 209, 210, 211, 250, 300, 400, 499, 500]
# fmt: on
UPPERS = [5, 10, 18, 30, 36, 54, 60, 72, 90, 100, 110, 120, 130, 139, 160, 182, 200, 225, 250, 300, 315, 500]


def a_train(rng: Random, fast: bool, version: int) -> Table:
    uppers = sorted(rng.sample(UPPERS, rng.choice([0, 0, 0, 1, 1, 1, 2, 2, 3, 5, 7] + [8, 9] * (version - 1))))
    plain, bands = rng.random() < 0.4, []
    base = rng.choice([50, 70, 100, 100, 150, 250])
    for upper in uppers + [None]:

        def less() -> int:
            return base if plain and rng.random() < 0.6 else max(5, base * rng.randint(40, 130) // 100)

        band = {} if upper is None else {"upper": upper}
        band |= {
            "emergency": less(),
            "service": less(),
            "normal": less(),
            "kdry": 1000 if plain else rng.randint(600, 1000),
            "kwet": 1000 if plain else rng.randint(600, 1000),
            "kn_up": rng.choice([0, rng.randint(0, 1000)]),
            "kn_down": rng.choice([0, rng.randint(0, 1000)]),
        }
        if version == 2 and rng.random() < 0.6:
            reduced = max(1, band["emergency"] * rng.randint(60, 100) // 100)
            band["emergency_reduced"] = rng.choice([reduced, band["emergency"]])
        bands.append(band)
    times = [0, 5, 10, 15, 20, 25, 30, 40, 45, 60, 65, 100]
    train = {
        "length": rng.choice([1, 10, 2_000, 10_000, 20_000, 40_000, rng.randint(1, 150_000)]),
        "max_speed": rng.choice(SPEEDS[29:] if fast else SPEEDS[10:]),
        "traction_cutoff_time": rng.choice(times + [1, 21, 73]),
        "traction_cutoff_interface": rng.random() < 0.5,
        "emergency_time": rng.choice(times + [1, 33, 300]),
        "service_time": rng.choice(times),
        "service_brake": rng.random() < 0.75,
        "band": bands,
    }
    if rng.random() < 0.6:
        train["rotating_mass"] = rng.choice([0, 9, 15, 50, rng.randint(0, 50)])
    return train


def some_starts(rng: Random, count: int, length: int, train_length: int) -> list[int]:
    """0 and other starts, some of them a train's length apart."""
    starts = {0}
    for _ in range(count):
        starts.add(
            rng.choice(
                [
                    rng.randrange(length),
                    rng.randrange(length) // 1000 * 1000,
                    min(length - 1, rng.choice(sorted(starts)) + train_length + rng.randint(-1, 1)),
                    rng.randrange(min(length, 3)),
                ]
            )
        )
    return sorted(start for start in starts if 0 <= start < length)


def a_grad(rng: Random, steep: int, version: int) -> int:
    """A gradient up to so many per mille to either side, in the unit of the version."""
    return rng.randint(-steep, steep) if version == 1 else rng.randint(-10 * steep, 10 * steep)


def some_areas(rng: Random, length: int, train_length: int) -> list[Table]:
    cuts = some_starts(rng, rng.choice([0, 0, 1, 2, 4, 6]), length, train_length) + [length]
    return [{"start": a, "end": b} for a, b in zip(cuts, cuts[1:]) if a < b and rng.random() < 0.5]


def a_track(rng: Random, train: Table, fast: bool, version: int) -> Table:
    length = rng.choice([rng.randint(1, 3000), 200_000, 200_000, 600_000, rng.randint(50_000, 1_500_000), 10_000_000])
    L, steep = train["length"], rng.choice([2, 5, 10, 25])
    gradient = [
        {"start": start, "grad": rng.choice([0, a_grad(rng, steep, version)])}
        for start in some_starts(rng, rng.choice([0, 1, 2, 3, 6, 12]), length, L)
    ]
    speed = []
    for start in some_starts(rng, rng.choice([0, 1, 2, 3, 5, 9]), length, L):
        speed.append({"start": start, "speed": rng.choice(SPEEDS[25:] if fast else SPEEDS)})
        if rng.random() < 0.5:
            speed[-1]["delayed"] = rng.random() < 0.4
    adhesion = some_areas(rng, length, L)
    track = {"length": length, "speed": speed}
    if rng.random() < 0.7:
        track["gradient"] = gradient if rng.random() < 0.9 else []
    if rng.random() < 0.5:
        track["adhesion"] = adhesion
    if version == 2 and rng.random() < 0.8:
        track["no_special"] = some_areas(rng, length, L)
    return track


def a_full_track(rng: Random, version: int) -> Table:
    """As many entries as may be."""
    length = rng.choice([2_000_000, 10_000_000])

    def cells(count: int) -> list[int]:
        return sorted(rng.sample(range(1, length), count))

    def areas(ends: list[int]) -> list[Table]:
        return [{"start": a, "end": b} for a, b in zip(ends[::2], ends[1::2])]

    ends = cells(128)
    track = {
        "length": length,
        "gradient": [{"start": start, "grad": a_grad(rng, 8, version)} for start in [0] + cells(511)],
        "speed": [
            {"start": start, "speed": rng.choice(SPEEDS), "delayed": rng.random() < 0.5} for start in [0] + cells(127)
        ],
        "adhesion": areas(ends),
    }
    return track if version == 1 else track | {"no_special": areas(cells(128))}


def an_authority(rng: Random, track: Table) -> Table:
    length, borders = track["length"], [entry["start"] for entry in track["speed"]]
    end = min(
        length,
        max(
            0,
            rng.choice(
                [
                    length,
                    length * 4 // 5,
                    rng.randint(0, length),
                    rng.choice(borders),
                    rng.choice(borders) + rng.choice([-1, 1]),
                ]
            ),
        ),
    )
    if rng.random() < 0.25:
        return {"kind": "limit", "loa": end, "speed": rng.choice(SPEEDS)}
    authority = {
        "kind": "end",
        "eoa": end,
        "svl": min(length, end + rng.choice([0, 0, 1, 5_000, 10_000, rng.randint(0, 30_000)])),
    }
    if rng.random() < 0.4:
        authority["release"] = rng.choice([0, 5, 9, 15, 18, 25, 30, 40])
    return authority


def a_document(rng: Random, version: int = 1) -> Table:
    """A data part as a table, whose sections and values are in range."""
    fast = rng.random() < 0.3  # so that the margins over 140 and over 210 km/h count
    train = a_train(rng, fast, version)
    track = a_track(rng, train, fast, version) if rng.random() < 0.985 else a_full_track(rng, version)
    national = {
        "avadh": rng.choice([0, 20, rng.randint(0, 20)]),
        "adhesion_max": rng.choice([40, 55, 70, 100]),
        "guidance": rng.random() < 0.4,
        "service_in_target": rng.random() < 0.8,
        "early_release": rng.random() < 0.4,
        "inhibit_under_reading": rng.random() < 0.3,
    }
    return {
        "version": version,
        "train": train,
        "national": national,
        "track": track,
        "authority": an_authority(rng, track),
    }


def an_open_document(rng: Random, version: int) -> tuple[Table, Supervisor]:
    """A data part with its supervisor: one that isn't refused."""
    while True:
        document = a_document(rng, version)
        try:
            return document, Supervisor(data_of(document))
        except Refused:
            continue
