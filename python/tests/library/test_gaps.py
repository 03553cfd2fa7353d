"""A closed loop: a driver at the permitted speed before three restrictions. Without a look ahead there are gaps, at
which a computer has to brake a train that isn't too fast; with the traction cut before them there are none.

The foot speed of a restriction is 7.5 km/h above its own. V_bec of a train at the permitted speed is 5.4 km/h more, by
its under-reading of 1.5 m/s, and up to 8.2 km/h more still, by 0.99 m/s² over T_be of 2.3 s, while its traction works.
"""
import unittest
from dataclasses import dataclass, field
from typing import Any

from sdm import End, Reading, Restriction, State, Supervisor

DATA: dict[str, Any] = {
    "version": 1,
    "train": {
        "length": 10_000,
        "max_speed": 120,
        "rotating_mass": 0,
        "traction_cutoff_time": 20,
        "traction_cutoff_interface": False,
        "emergency_time": 23,
        "service_time": 30,
        "service_brake": True,
        "band": [
            {
                "emergency": 110,
                "service": 90,
                "normal": 60,
                "kdry": 900,
                "kwet": 900,
                "kn_up": 0,
                "kn_down": 0,
            }
        ],
    },
    "national": {
        "avadh": 0,
        "adhesion_max": 70,
        "guidance": False,
        "service_in_target": True,
        "early_release": True,
        "inhibit_under_reading": False,
    },
    "track": {"length": 1_200_000, "speed": [{"start": 0, "speed": 120}]},
    "authority": {"kind": "end", "eoa": 1_000_000, "svl": 1_010_000},
}
RESTRICTIONS = [Restriction(1, 200_000, 260_000, 60, 0), Restriction(2, 400_000, 450_000, 80, 0)]
RESTRICTIONS += [Restriction(3, 600_000, 680_000, 40, 0)]
UNDER_MM_S, GAIN_CM_S2, BRAKE_CM_S2 = 1_500, 99, 60
WORKS_AFTER_DS = 10  # c + K: an order of the cut-off works so late; readings come each 0.1 s, which is p
AHEAD_DS = WORKS_AFTER_DS + 1


@dataclass
class Train:
    """A train on level track, whose odometer is 1 m off at most, and what its supervisor says of it."""

    supervisor: Supervisor
    looks_ahead: bool
    front_mm: float = 100_000
    speed_mm_s: float = 5_000
    cut_for_ds: int = 0
    gaps: list[Reading] = field(default_factory=list)
    braked: int = 0
    cut: int = 0

    @property
    def may_gain_cm_s2(self) -> int:
        """The bound of the acceleration that is handed in: coasting, once the cut-off has worked."""
        return 0 if self.cut_for_ds > WORKS_AFTER_DS else GAIN_CM_S2

    def reading(self, time_ds: int) -> Reading:
        """What the odometer says."""
        mm, speed = round(self.front_mm), round(self.speed_mm_s)
        return Reading(time_ds, mm, mm - 1_000, mm + 1_000, speed, self.may_gain_cm_s2, UNDER_MM_S)

    def most_asked(self, now: Reading) -> Reading:
        """The most that a reading may ask until an order of the next turn works, with the traction on."""
        gain = GAIN_CM_S2 * AHEAD_DS
        most = now.max_mm + (now.speed_mm_s + UNDER_MM_S + gain) * AHEAD_DS // 10
        return Reading(now.time_ds, most, now.min_mm, most, now.speed_mm_s + gain, GAIN_CM_S2, UNDER_MM_S)

    def turn(self, time_ds: int) -> None:
        """One reading, and what the driver does until the next."""
        now = self.reading(time_ds)
        row = self.supervisor.cycle(now)
        if not row.covered and row.state != State.RELEASE and not row.eb and now.speed_mm_s > 0:
            self.gaps.append(now)
        self.braked += row.eb
        cuts = row.tco or (self.looks_ahead and not self.supervisor.would_cover_up_to(self.most_asked(now)))
        self.cut_for_ds = self.cut_for_ds + 1 if cuts else 0
        self.cut += cuts
        self.run(self.supervisor.display(now).permitted_kmh / 0.0036)

    def run(self, permitted_mm_s: float) -> None:
        """A driver at the permitted speed: gains below it, and brakes above it."""
        accel = 0.0
        if self.speed_mm_s > permitted_mm_s:
            accel = -10.0 * BRAKE_CM_S2
        elif self.speed_mm_s < permitted_mm_s - 100 and self.cut_for_ds <= WORKS_AFTER_DS:
            accel = 10.0 * GAIN_CM_S2
        before = self.speed_mm_s
        self.speed_mm_s = max(before + 0.1 * accel, 0.0)
        self.front_mm += 0.1 * (before + self.speed_mm_s) / 2


def driven(looks_ahead: bool) -> Train:
    """A run of at most ten minutes."""
    with Supervisor(DATA) as supervisor:
        supervisor.end(End(1_000_000, 1_010_000, 0))
        for restriction in RESTRICTIONS:
            supervisor.restrict(restriction)
        train = Train(supervisor, looks_ahead)
        for time_ds in range(0, 6_000):
            train.turn(time_ds)
    return train


class Gaps(unittest.TestCase):
    def test_without_a_look_ahead_there_are_gaps(self) -> None:
        train = driven(looks_ahead=False)
        self.assertGreater(len(train.gaps), 0)
        self.assertEqual(train.braked, 0)

    def test_none_where_the_traction_is_cut_before_them(self) -> None:
        train = driven(looks_ahead=True)
        self.assertEqual(train.gaps, [])
        self.assertEqual(train.braked, 0)
        self.assertGreater(train.cut, 0)
        self.assertGreater(train.front_mm, 6_800_000)  # past the last restriction
        self.assertLessEqual(train.front_mm + 1_000, 10_100_000)  # at or before the SvL
