"""Inputs over which calls from C cost about as much as they may, for scripts/house try bounds. In all of them the map
has as many segments as there may be, and all in one short part of the track. A place that is sought there costs most:
the segments are halved down to twelve, and then gone back over."""
from __future__ import annotations

from collections.abc import Iterable, Iterator
from dataclasses import dataclass

from inputs import AREAS, FASTEST_MM_S, GRADIENTS, RESTRICTIONS, SPEED_STEPS, TRACK_CM, reading, table

SEGMENTS = GRADIENTS + 4 * AREAS
LEFT = 12  # segments where halving ends; the first of them is wide, so a place is in it as a rule
FIRST_CM, WIDE_CM, NARROW_CM = 8_600_000, 500, 4  # the short part, which is less than 1 of SEGMENTS // 4 parts of all
TOP_KMH, MARGIN_KMH = 500, 15  # the margin is dV_ebi from 210 km/h on
BANDS = 10
Steps = list[tuple[int, int]]  # of a speed profile: places in cm and speeds in km/h


def borders() -> list[int]:
    """Where the segments of the map begin, without the first."""
    found = [FIRST_CM]
    for k in range(1, SEGMENTS - 1):
        found.append(found[-1] + (NARROW_CM if k % LEFT else WIDE_CM))
    return found


IN_WIDE_CM = borders()[SEGMENTS // 2 - 1] + 100  # in a wide segment, midway in the short part


def dense_track() -> str:
    """The gradients and areas that make the segments, under a train of 1 cm: what rises, or ends, counts until the rear
    end has left the cell before."""
    gradients, areas = list[int](), list[int]()
    for k, border in enumerate(borders(), 1):
        (gradients if k % 3 and k < SEGMENTS - 1 else areas).append(border)
    text = table("track.gradient", start=0, grad=1)
    for k, border in enumerate(gradients):
        text += table("track.gradient", start=border - k % 2, grad=k % 2)
    for k in range(0, len(areas), 2):
        name = "track.adhesion" if k < 2 * AREAS else "track.no_special"
        text += table(name, start=areas[k], end=areas[k + 1] - 1)
    return text


@dataclass(frozen=True)
class Train:
    """A train of 1 cm that brakes alike in all its bands, which all but one lie below any target: its decelerations in
    cm/s2, and its times in ds."""

    emergency: int
    service: int
    normal: int
    cutoff_ds: int = 0
    emergency_ds: int = 0
    service_ds: int = 0

    def text(self) -> str:
        text = f"[train]\nlength = 1\nmax_speed = {TOP_KMH}\ntraction_cutoff_time = {self.cutoff_ds}\n"
        text += f"traction_cutoff_interface = false\nemergency_time = {self.emergency_ds}\n"
        text += f"service_time = {self.service_ds}\nservice_brake = true\n"
        brakes = {"emergency": self.emergency, "service": self.service, "normal": self.normal}
        for band in range(1, BANDS + 1):
            upper = {"upper": band} if band < BANDS else {}
            text += table("train.band", **upper, **brakes, kdry=1000, kwet=1000, kn_up=0, kn_down=0)
        return text

    def distance_cm(self, from_m_s: float, to_kmh: int) -> int:
        """In which distance the emergency brake leads from one speed to another."""
        return round((from_m_s**2 - (to_kmh / 3.6) ** 2) * 10_000 / (2 * self.emergency))


def data(train: Train, falls: Steps, svl_cm: int) -> str:
    """The data of a train and of falls from the greatest speed on, with the dividing line."""
    text = "version = 2\n" + train.text()
    text += "[national]\navadh = 20\nadhesion_max = 400\nguidance = true\nservice_in_target = true\n"
    text += f"early_release = false\ninhibit_under_reading = false\n[track]\nlength = {TRACK_CM}\n" + dense_track()
    text += "".join(table("track.speed", start=start, speed=speed) for start, speed in [(0, TOP_KMH), *falls])
    return text + f'[authority]\nkind = "end"\neoa = {svl_cm - 1000}\nsvl = {svl_cm}\n%%\n'


def dips(falls: Steps, count: int, after_cm: int, long_cm: int) -> str:
    """Restrictions that lower the speed by 1 km/h within steps, so that each is a fall more."""
    return "".join(
        f"restrict,{k},{start + after_cm},{start + after_cm + long_cm},{speed - 1},0\n"
        for k, (start, speed) in enumerate(falls[:count])
    )


def packed(first_cm: int, speeds: Iterable[int]) -> Steps:
    """Falls 10 cm from one another."""
    return [(first_cm + 10 * k, speed) for k, speed in enumerate(speeds)]


def asking() -> str:
    """Readings that ask all falls: 17 that are slower than the train or as fast, each of which is asked as it is slower
    than the one before, and all others, as V_bec for each is above its foot speed. The EBDs at V_bec and the guidance
    curves at V_est lie where the map is dense, and each fall is covered."""
    train, v_est, gain = Train(400, 400, 400, emergency_ds=300, service_ds=300), 105, 12  # m/s, by 0.4 m/s2 in 30 s
    slowest_kmh = v_est * 18 // 5 - MARGIN_KMH - 1
    falls = packed(IN_WIDE_CM + 5500, range(slowest_kmh + SPEED_STEPS - 2, slowest_kmh - 1, -1))
    text = data(train, falls, IN_WIDE_CM + train.distance_cm(v_est + gain, 0)) + dips(falls, RESTRICTIONS, 3, 3)
    places = (-10_000_000, 70_000_000, 81_000_000)  # before all limits, and past some
    return text + "".join(reading(k, place, 0, 1000 * v_est, 300, 0) for k, place in enumerate(places))


def showing() -> str:
    """Displays of a train that passes no limit at any speed that is looked at while speeds are halved, 250, 375, 437,
    468 km/h and so on up to 500: at each of them as many falls are asked as may be, where the map is dense. And all
    falls are slower than the train, and may be the target that counts."""
    train, speeds = Train(400, 400, 400), [*range(499, 422, -1), *range(375, 359, -1), *range(250, 216, -1)]
    falls = packed(IN_WIDE_CM, speeds)
    text = data(train, falls, IN_WIDE_CM + train.distance_cm(TOP_KMH / 3.6, 0)) + dips(falls, RESTRICTIONS, 3, 3)
    return text + "".join(reading(k, place, 0, FASTEST_MM_S, 0, 0) for k, place in enumerate((-10_000_000, 80_000_000)))


def hidden(top_kmh: int, apart_cm: int) -> Steps:
    """Falls from a speed on, so far apart that none hides the one before, but all are hidden by the last, which is far
    slower."""
    count = SPEED_STEPS - 2
    return [*((IN_WIDE_CM - apart_cm * (count - k), top_kmh - k) for k in range(count)), (IN_WIDE_CM, 1)]


def restricting() -> str:
    """A restriction that comes and goes ahead of as many falls as there may be beside it. All are slower, so it covers
    all steps and lowers none. Its curves reach the bands below the last one where the map is dense."""
    train, falls = Train(100, 100, 94), hidden(TOP_KMH - 2, 7000)
    start = IN_WIDE_CM + 100 - train.distance_cm((TOP_KMH - 1 + MARGIN_KMH) / 3.6, BANDS - 1)
    text = data(train, falls, TRACK_CM) + dips(falls[-RESTRICTIONS:-1], RESTRICTIONS - 1, 3500, 1000)
    return text + f"restrict,99,{start},{TRACK_CM},{TOP_KMH - 1},0\nrevoke,99\n" * 3


def revoking() -> str:
    """A restriction over the whole track that covers half of the static falls comes and goes. The others lie within one
    another over all static falls, and begin at falls themselves. So there are as many falls as may be, no two of the
    others end in one place, and each covers nearly all steps."""
    apart_cm, others = 4500, RESTRICTIONS - 1
    falls = hidden(TOP_KMH - RESTRICTIONS, apart_cm)
    first_cm = falls[0][0] - apart_cm * others
    nested = "".join(
        f"restrict,{k},{first_cm + apart_cm * k},{TRACK_CM - 1 - k},{TOP_KMH - 1 - k},0\n" for k in range(others)
    )
    text = data(Train(100, 100, 100), falls, TRACK_CM) + nested
    return text + f"restrict,99,0,{TRACK_CM},{falls[SPEED_STEPS // 2][1]},0\nrevoke,99\n" * 3


def inputs() -> Iterator[tuple[str, str]]:
    """All of them by their names."""
    yield "asking", asking()
    yield "showing", showing()
    yield "restricting", restricting()
    yield "revoking", revoking()
