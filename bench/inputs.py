"""The standard inputs of the measurements, each made by a function of its own from a seed.

The same seed gives the same bytes with every version of Python, since the numbers come from the generator below and
from no other. docs/FORMATS.md says what the bytes mean.
"""
from __future__ import annotations

from collections.abc import Iterator
from dataclasses import dataclass, replace
from itertools import islice
from pathlib import Path

ROOT = Path(__file__).resolve().parent.parent

RECORDS = 100_000  # the most records of a journey
FLAT_LINES = 500_000
GREATEST_READINGS = 2_000
GREATEST_ENDS = 2_000
COVERINGS = 1_000

TRACK_CM = 10_000_000  # the longest track
GRADIENTS = 512
SPEED_STEPS = 128
AREAS = 64
RESTRICTIONS = 32
FASTEST_MM_S = 138_888  # 500 km/h

DENSE_CM = 5_000_000  # where steps that lie close together begin
DENSE_APPROACH_MM = 15_000_000  # from how far before them on there are readings
DENSE_GAPS_CM = [1, 1, 2, 5, 20, 100, 400, 1_500]
DENSE_CHANGES_KMH = [-1, -1, -2, -3, -5, -10, -20, 3, 7, 15]


@dataclass
class Input:
    """An input with all its lines, and the same with the first of them alone; `head` comes before the lines of both.
    `counted` are the readings among the lines, or the records where there is no reading."""

    name: str
    words: list[str]
    words_of_one: list[str]
    head: str
    lines: list[str]
    counted: int

    def whole(self) -> bytes:
        """The bytes with all lines."""
        return self._bytes(self.lines)

    def one(self) -> bytes:
        """The bytes with the first line alone."""
        return self._bytes(self.lines[:1])

    def _bytes(self, lines: list[str]) -> bytes:
        return (self.head + "".join(lines)).encode()


class Numbers:
    """Pseudorandom numbers: the generator SplitMix64."""

    MASK = (1 << 64) - 1

    def __init__(self, seed: int) -> None:
        self.state = seed & self.MASK

    def draw(self, least: int, greatest: int) -> int:
        """A whole number from the least to the greatest."""
        self.state = (self.state + 0x9E3779B97F4A7C15) & self.MASK
        mixed = self.state
        mixed = ((mixed ^ (mixed >> 30)) * 0xBF58476D1CE4E5B9) & self.MASK
        mixed = ((mixed ^ (mixed >> 27)) * 0x94D049BB133111EB) & self.MASK
        mixed ^= mixed >> 31
        return least + mixed % (greatest - least + 1)

    def choice(self, values: list[int]) -> int:
        """One of some values."""
        return values[self.draw(0, len(values) - 1)]


def reading(time_ds: int, est_mm: int, spread_mm: int, speed_mm_s: int, accel_cm_s2: int, under_mm_s: int) -> str:
    """The record of a reading whose true front end lies within a spread about the estimated one."""
    numbers = (time_ds, est_mm, est_mm - spread_mm, est_mm + spread_mm, speed_mm_s, accel_cm_s2, under_mm_s)
    return "read," + ",".join(map(str, numbers)) + "\n"


def realistic_data() -> str:
    """The data part of examples/realistic, with the dividing line: 6 km of track with an end of authority at 5 km."""
    text = (ROOT / "examples" / "realistic" / "input").read_text()
    return text[: text.index("%%\n") + len("%%\n")]


def trip(numbers: Numbers) -> Iterator[tuple[int, int, int]]:
    """The places in mm, speeds in mm/s and accelerations in cm/s² of a train, each tenth of a second: it accelerates,
    runs at its top speed, brakes, and stands for 5 s near 4940 m. Places are kept in twentieths of a mm, so that they
    are exact."""
    place, speed = 20 * numbers.draw(0, 200_000), 0
    top, traction, brake = numbers.draw(20_000, 43_000), numbers.draw(30, 80), numbers.draw(45, 60)
    stop, braking, standing = 20 * 4_940_000, False, 0
    while standing < 50:
        braking = braking or (stop - place) * brake <= speed * speed
        faster = max(speed - brake, 0) if braking else min(speed + traction, top)
        yield place // 20, speed, faster - speed
        place, speed = place + speed + faster, faster
        standing += speed == 0


def smooth_readings(numbers: Numbers) -> Iterator[str]:
    """Trips of a train on the realistic track, one after another, with a reading each tenth of a second."""
    time = 0
    while True:
        for place, speed, accel in trip(numbers):
            yield reading(time, place, 5_000, speed, accel, 500)
            time += 1


def scattered_readings(numbers: Numbers, farthest_mm: int, fastest_mm_s: int, slowest_mm_s: int = 0) -> Iterator[str]:
    """Readings at random over places and speeds."""
    time = 0
    while True:
        place, spread = numbers.draw(0, farthest_mm), numbers.draw(0, 10_000)
        speed, accel = numbers.draw(slowest_mm_s, fastest_mm_s), numbers.draw(-100, 100)
        yield reading(time, place, spread, speed, accel, numbers.draw(0, 1_000))
        time += 1


def smooth(seed: int) -> Input:
    """The realistic data with readings of a train that runs, brakes and stops."""
    lines = list(islice(smooth_readings(Numbers(seed)), RECORDS))
    return Input("smooth", ["run"], ["run"], realistic_data(), lines, len(lines))


def display(seed: int) -> Input:
    """The readings of `smooth`, of each of which is told what a driver is shown."""
    shown = smooth(seed)
    return replace(shown, name="display", words=["display"], words_of_one=["display"])


def scattered(seed: int) -> Input:
    """The realistic data with readings at random over its track, up to 160 km/h."""
    lines = list(islice(scattered_readings(Numbers(seed), 6_000_000, 44_444), RECORDS))
    return Input("scattered", ["run"], ["run"], realistic_data(), lines, len(lines))


def table(name: str, **values: int) -> str:
    """An entry of a list of the data part."""
    return f"[[{name}]]\n" + "".join(f"{key} = {value}\n" for key, value in values.items())


def greatest_train(bands: int = 8, width_kmh: int = 60, length_cm: int = 10_000, cutoff_ds: int = 100) -> str:
    """A train with so many speed bands, each of this width but the last, whose brakes grow weaker with the speed."""
    text = f"[train]\nlength = {length_cm}\nmax_speed = 500\ntraction_cutoff_time = {cutoff_ds}\n"
    text += "traction_cutoff_interface = true\nemergency_time = 60\nservice_time = 50\nservice_brake = true\n"
    for band in range(bands):
        upper = {"upper": width_kmh * (band + 1)} if band < bands - 1 else {}
        brakes = {"emergency": 120 - 5 * band, "service": 100 - 5 * band, "normal": 70 - 3 * band}
        text += table("train.band", **upper, **brakes, kdry=900, kwet=950, kn_up=20, kn_down=20)
    return text


def greatest_speeds() -> list[tuple[int, int]]:
    """As many speed steps as there may be, evenly over the track, each slower than the one before: places in cm and
    speeds in km/h."""
    return [(TRACK_CM * entry // SPEED_STEPS, 500 - 3 * entry) for entry in range(SPEED_STEPS)]


def greatest_track(numbers: Numbers, speeds: list[tuple[int, int]]) -> str:
    """A track of 100 km with as many entries as there may be. No gradient is that of the entry before, and the train is
    shorter than each entry, so that all of them count."""
    text, grad = f"[track]\nlength = {TRACK_CM}\n", 0
    for entry in range(GRADIENTS):
        grad = (grad + 10 + numbers.draw(1, 20)) % 21 - 10
        text += table("track.gradient", start=TRACK_CM * entry // GRADIENTS, grad=grad)
    for start, speed in speeds:
        text += table("track.speed", start=start, speed=speed)
    for entry in range(AREAS):
        start = TRACK_CM * entry // AREAS + 50_000
        text += table("track.adhesion", start=start, end=start + numbers.draw(20_000, 60_000))
    return text


def greatest_restrictions() -> Iterator[str]:
    """Restrictions within each fourth speed step, so that each makes a fall and hides none."""
    for entry in range(RESTRICTIONS):
        start = TRACK_CM * (4 * entry + 1) // SPEED_STEPS + 30_000
        yield f"restrict,{entry},{start},{start + 20_000},{100 - entry},1\n"


def greatest_data(
    numbers: Numbers,
    guidance: str = "false",
    train: str = greatest_train(),
    speeds: list[tuple[int, int]] = greatest_speeds(),
) -> str:
    """The data part of the greatest data, with the dividing line."""
    text = "version = 1\n" + train
    text += f"[national]\navadh = 10\nadhesion_max = 60\nguidance = {guidance}\nservice_in_target = true\n"
    text += "early_release = false\ninhibit_under_reading = false\n" + greatest_track(numbers, speeds)
    return text + f'[authority]\nkind = "end"\neoa = {TRACK_CM - 10_000}\nsvl = {TRACK_CM}\nrelease = 40\n%%\n'


def greatest_with(name: str, head: str, readings: Iterator[str]) -> Input:
    """Some of the greatest data, with readings over them."""
    lines = list(islice(readings, GREATEST_READINGS))
    return Input(name, ["run"], ["run"], head, lines, len(lines))


def greatest_of(name: str, seed: int, guidance: str = "false", train: str = greatest_train()) -> Input:
    """The greatest data, with readings at random over their track, up to 500 km/h."""
    numbers = Numbers(seed)
    head = greatest_data(numbers, guidance, train) + "".join(greatest_restrictions())
    return greatest_with(name, head, scattered_readings(numbers, 10 * TRACK_CM, FASTEST_MM_S))


def greatest(seed: int) -> Input:
    """The greatest data without guidance curves."""
    return greatest_of("greatest", seed, "false")


def greatest_guided(seed: int) -> Input:
    """The greatest data with guidance curves."""
    return greatest_of("greatest-guided", seed, "true")


def greatest_ten(seed: int) -> Input:
    """The greatest data without guidance curves, for a train of ten bands, as many as there may be."""
    return greatest_of("greatest-ten", seed, "false", greatest_train(bands=10, width_kmh=50))


def dense_speeds(numbers: Numbers) -> list[tuple[int, int]]:
    """Speed steps from 1 cm to 15 m apart, most of them slower than the one before: places in cm and speeds in km/h."""
    steps, start, speed = [(0, 500)], DENSE_CM, 500
    while len(steps) < SPEED_STEPS:
        speed = min(max(speed + numbers.choice(DENSE_CHANGES_KMH), 5), 500)
        steps.append((start, speed))
        start += numbers.choice(DENSE_GAPS_CM)
    return steps


def dense_readings(numbers: Numbers, first_mm: int, last_mm: int) -> Iterator[str]:
    """Readings before steps that lie close together, and a quarter of them among these, at whole tens of km/h. Some are
    of a train that accelerates or may be faster than it is read, so that V_bec is up to 284 km/h above V_est."""
    time = 0
    while True:
        place = numbers.draw(first_mm - numbers.choice([0, 1, 1, 1]) * DENSE_APPROACH_MM, last_mm)
        speed, accel = 10 * numbers.draw(1, 50) * 2_500 // 9, numbers.choice([0, 0, 100, 300])
        yield reading(time, place, numbers.draw(0, 10_000), speed, accel, numbers.choice([0, 0, 1_000, 10_000]))
        time += 1


def dense(seed: int) -> Input:
    """The greatest data with guidance curves and all speed steps close together, for a train whose traction is cut off
    late, and which is no longer than the shortest step, so that all of them count."""
    numbers = Numbers(seed)
    steps, train = dense_speeds(numbers), greatest_train(length_cm=1, cutoff_ds=300)
    head = greatest_data(numbers, "true", train, steps)
    return greatest_with("dense", head, dense_readings(numbers, 10 * steps[1][0], 10 * steps[-1][0]))


def staircase(seed: int) -> Input:
    """The greatest data with guidance curves and speeds that fall by 1 km/h from step to step, with readings at random
    over the track and over these speeds. So as many falls as there may be have V_est between target and foot speed."""
    numbers = Numbers(seed)
    steps = [(start, 500 - entry) for entry, (start, _) in enumerate(greatest_speeds())]
    head, slowest = greatest_data(numbers, "true", speeds=steps), steps[-1][1] * 2_500 // 9
    return greatest_with("staircase", head, scattered_readings(numbers, 10 * TRACK_CM, FASTEST_MM_S, slowest))


def wide_readings(numbers: Numbers) -> Iterator[str]:
    """Readings whose min and max safe front ends lie 20 to 80 km apart on the track of 100 km."""
    time = 0
    while True:
        place, spread = numbers.draw(40_000_000, 60_000_000), numbers.draw(10_000_000, 40_000_000)
        speed, accel = numbers.draw(0, FASTEST_MM_S), numbers.draw(-100, 100)
        yield reading(time, place, spread, speed, accel, numbers.draw(0, 1_000))
        time += 1


def wide(seed: int) -> Input:
    """The greatest data, with readings between whose safe front ends many steps of the speed profile lie."""
    numbers = Numbers(seed)
    head = greatest_data(numbers) + "".join(greatest_restrictions())
    return greatest_with("wide", head, wide_readings(numbers))


def greatest_restrict(seed: int) -> Input:
    """The greatest data without restrictions, and then each of them."""
    lines = list(greatest_restrictions())
    return Input("greatest-restrict", ["run"], ["run"], greatest_data(Numbers(seed)), lines, len(lines))


def greatest_revoke(seed: int) -> Input:
    """The greatest data with all restrictions, each of which is then revoked, the first one first."""
    head = greatest_data(Numbers(seed)) + "".join(greatest_restrictions())
    lines = [f"revoke,{entry}\n" for entry in range(RESTRICTIONS)]
    return Input("greatest-revoke", ["run"], ["run"], head, lines, len(lines))


def covering(seed: int) -> Input:
    """The greatest data with all restrictions but one, and then in turn one over the whole track that is slower than
    all else and so hides all falls but its own, and its revocation, which uncovers them. A pair of both counts as
    one."""
    head = greatest_data(Numbers(seed)) + "".join(islice(greatest_restrictions(), RESTRICTIONS - 1))
    lines = [f"restrict,99,0,{TRACK_CM},5,0\n", "revoke,99\n"] * COVERINGS
    return Input("covering", ["run"], ["run"], head, lines, COVERINGS)


def greatest_end(seed: int) -> Input:
    """The greatest data with all restrictions, and authorities that end at random over the track, each with a release
    speed."""
    numbers = Numbers(seed)
    head = greatest_data(numbers) + "".join(greatest_restrictions())
    lines = []
    for _ in range(GREATEST_ENDS):
        end = numbers.draw(100_000, TRACK_CM - 10_000)
        lines.append(f"end,{end},{end + 10_000},40\n")
    return Input("greatest-end", ["run"], ["run"], head, lines, len(lines))


def authority(numbers: Numbers) -> str:
    """The record of an authority on the realistic track: nine of ten end in a stop, half of these with a release
    speed."""
    end = numbers.draw(300_000, 590_000)
    if numbers.draw(1, 10) == 1:
        return f"limit,{end},{numbers.draw(20, 160)}\n"
    return f"end,{end},{end + 5_000},{20 * numbers.draw(0, 1)}\n"


def restriction(numbers: Numbers, held: set[int]) -> str:
    """The record that sets a restriction on the realistic track, or revokes it where it is held."""
    identity = numbers.draw(1, RESTRICTIONS)
    if identity in held:
        held.remove(identity)
        return f"revoke,{identity}\n"
    held.add(identity)
    start = numbers.draw(0, 550_000)
    end = start + numbers.draw(5_000, 50_000)
    return f"restrict,{identity},{start},{end},{numbers.draw(40, 160)},{numbers.draw(0, 1)}\n"


def mixed(seed: int) -> Input:
    """The smooth readings of the realistic data; after each of them an authority, and a restriction or a revocation."""
    numbers, held, lines = Numbers(seed), set[int](), list[str]()
    for line in smooth_readings(Numbers(seed)):
        lines += [line, authority(numbers), restriction(numbers, held)]
        if len(lines) >= RECORDS:
            break
    lines = lines[:RECORDS]
    readings = sum(line.startswith("read") for line in lines)
    return Input("mixed", ["run"], ["run"], realistic_data(), lines, readings)


def flat(seed: int) -> Input:
    """Lines of one brake curve of 1 m/s² that ends at 10 km."""
    numbers = Numbers(seed)
    lines = [f"{time},{numbers.draw(0, 10_100_000)},{numbers.draw(0, 138_888)}\n" for time in range(FLAT_LINES)]
    words = ["flat", "100", "1000000"]
    return Input("flat", words, words, "", lines, FLAT_LINES)


def trial(seed: int) -> Input:
    """A journey that the program makes itself; it reads no input."""
    return Input("trial", ["trial", "7", "100000"], ["trial", "7", "1"], "", [], 100_000)


def drive(seed: int) -> Input:
    """A drive of as many steps over the realistic data, which have no dividing line then."""
    return Input(
        "drive", ["drive", "7", "100000"], ["drive", "7", "1"], realistic_data().removesuffix("%%\n"), [], 100_000
    )


MAKERS = {
    "smooth": smooth,
    "display": display,
    "scattered": scattered,
    "greatest": greatest,
    "greatest-guided": greatest_guided,
    "greatest-ten": greatest_ten,
    "dense": dense,
    "staircase": staircase,
    "wide": wide,
    "greatest-restrict": greatest_restrict,
    "greatest-revoke": greatest_revoke,
    "covering": covering,
    "greatest-end": greatest_end,
    "mixed": mixed,
    "flat": flat,
    "trial": trial,
    "drive": drive,
}
