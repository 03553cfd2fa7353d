"""The row of a reading (PROFILE "The row")."""
from typing import NamedTuple

from sdm_evidence.model.limits import Situation
from sdm_evidence.model.triggers import Commands, Decision
from sdm_evidence.model.units import NOTCHES_PER_KM_H, printed

COLUMNS = ("d_EBI", "d_SBI", "d_W", "d_P", "d_I")


class Row(NamedTuple):
    """PROFILE "The row": `commands` has the status with it; `limits` are the columns ebi to indication, mm or None."""

    time: int
    state: str
    commands: Commands
    covered: bool
    ceiling: int
    limits: list[int | None]

    def text(self) -> str:
        """FORMATS "The row of a reading"."""
        done, places = self.commands, ",".join("-" if mm is None else str(mm) for mm in self.limits)
        return (
            f"{self.time},{self.state},{done.status},{done.tco:d},{done.sb:d},{done.eb:d},"
            f"{self.covered:d},{self.ceiling},{places}\n"
        )


def is_covered(situation: Situation) -> bool:
    """PROFILE "The row", covered: no release speed monitoring, and each target but Eoa is met."""
    return not situation.in_release and all(
        each.x <= each.d_EBI or (not each.target.is_stop and each.V_bec <= each.target.foot_speed)
        for each in situation.targets
        if each.target.kind != "Eoa"
    )


def row_of(situation: Situation, decision: Decision) -> Row:
    """PROFILE "The row": its places are the least limit of each name over the targets with V_target ≤ V_est."""
    V = situation.reading.V_est
    slower = [each for each in situation.targets if each.target.V_target * NOTCHES_PER_KM_H <= V]
    found = [[getattr(each, name) for each in slower if getattr(each, name) is not None] for name in COLUMNS]
    return Row(
        situation.reading.time,
        decision.state,
        decision.commands,
        is_covered(situation),
        situation.M,
        [printed(min(places, default=None)) for places in found],
    )
