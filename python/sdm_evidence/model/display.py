"""`display` (PROFILE "What a driver is shown", FORMATS "`display`"): limits as speeds, and the target that counts."""
from bisect import bisect_left
from collections.abc import Callable
from typing import NamedTuple

from sdm_evidence.model.journey import Supervisor
from sdm_evidence.model.limits import Situation
from sdm_evidence.model.records import Reading
from sdm_evidence.model.speeds import dV_ebi, dV_sbi, no_margin
from sdm_evidence.model.triggers import Cause, above_release, over_a_limit
from sdm_evidence.model.units import GRAINS_PER_MM, NOTCHES_PER_KM_H, Number

MOST_SHOWN = 500  # km/h
# The causes by which a limit is passed.
PASSED: dict[str, Callable[[Situation], list[Cause]]] = {
    "permitted": lambda situation: over_a_limit(situation, no_margin, "d_P") + above_release(situation),
    "sbi": lambda situation: over_a_limit(situation, dV_sbi, "d_SBI"),
    "ebi": lambda situation: over_a_limit(situation, dV_ebi, "d_EBI") + above_release(situation),
}
KINDS = {"Mrsp": "M", "Loa": "L", "Eoa": "E", "Svl": "S"}


class ReadingInKmh(Reading):
    """A reading whose speed is in km/h, where others have mm/s."""

    @property
    def V_est(self) -> Number:
        return self.speed * NOTCHES_PER_KM_H


class Shown(NamedTuple):
    """The target that is shown: its kind as printed, and how far the train is before it, in mm."""

    kind: str
    distance: int


class Display(NamedTuple):
    """PROFILE "What a driver is shown": speeds in km/h; `shown` is None where no target counts."""

    time: int
    permitted: int
    sbi: int
    ebi: int
    release: int
    shown: Shown | None

    def text(self) -> str:
        """FORMATS "`display`"."""
        kind, distance = self.shown or ("-", "-")
        return f"{self.time},{self.permitted},{self.sbi},{self.ebi},{self.release},{kind},{distance}\n"


def at_speed(supervisor: Supervisor, situation: Situation, v: int) -> Situation:
    """A situation with v km/h in place of the reading's speed, and with the limits of that speed; all else stays."""
    reading = ReadingInKmh(*situation.reading)._replace(speed=v)
    limits = [supervisor.limits(reading, each.target) for each in situation.targets]
    return situation._replace(reading=reading, targets=limits)


def is_passed(supervisor: Supervisor, situation: Situation, name: str, v: int) -> bool:
    """PROFILE "What a driver is shown": whether the limit of a name would be passed at v km/h."""
    return bool(PASSED[name](at_speed(supervisor, situation, v)))


def display_speed(supervisor: Supervisor, situation: Situation, name: str) -> int:
    """PROFILE "What a driver is shown": the greatest v at which it isn't passed. At 0 it never is, and where it is
    passed at a speed it is at each higher one, so the speeds may be halved."""
    faster = range(1, MOST_SHOWN + 1)
    return bisect_left(faster, True, key=lambda v: is_passed(supervisor, situation, name, v))


def shown_of(situation: Situation) -> Shown | None:
    """PROFILE "What a driver is shown": of the targets with V_target < V_est the first whose d_P is least."""
    slower = [each for each in situation.targets if each.target.speed_with(no_margin) < situation.reading.V_est]
    if not slower:
        return None
    first = min(slower, key=lambda each: each.d_P)
    return Shown(KINDS[first.target.kind], max((first.target.place - first.x) // GRAINS_PER_MM, 0))


def display_of(supervisor: Supervisor, situation: Situation) -> Display:
    """PROFILE "What a driver is shown", of a reading in what is in force."""
    speeds = [display_speed(supervisor, situation, name) for name in PASSED]
    release = getattr(situation.authority, "release", 0)  # a limit of authority has none
    return Display(situation.reading.time, speeds[0], speeds[1], speeds[2], release, shown_of(situation))
