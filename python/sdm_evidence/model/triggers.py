"""Triggers, commands, state, status (PROFILE "Triggers", "Commands, state, status")."""
from typing import NamedTuple

from sdm_evidence.model.data import Data, Stop
from sdm_evidence.model.limits import Situation, TargetLimits
from sdm_evidence.model.speeds import Margin, dV_ebi, dV_sbi, dV_warning, no_margin
from sdm_evidence.model.units import GRAINS_PER_CM, NOTCHES_PER_KM_H


class Cause(NamedTuple):
    """Why a trigger holds: the rule, and the limits it speaks of, if any."""

    rule: str
    by: TargetLimits | None = None


class Triggers(NamedTuple):
    """Each trigger is the list of all its causes, in the order of PROFILE "Causes"."""

    over: list[Cause]
    warn: list[Cause]
    serv: list[Cause]
    emer: list[Cause]


def over_a_limit(situation: Situation, margin: Margin, name: str) -> list[Cause]:
    """PROFILE "Triggers": V above M and its margin; V above t and its margin where x is past the limit of that name."""
    V, causes = situation.reading.V_est, []
    if V > situation.M * NOTCHES_PER_KM_H + margin(situation.M):
        causes.append(Cause("ceiling"))
    for each in situation.targets:
        limit = getattr(each, name)
        if limit is not None and each.x > limit and V > each.target.speed_with(margin):
            causes.append(Cause("target", each))
    return causes


def above_release(situation: Situation) -> list[Cause]:
    """PROFILE "Triggers": the reading is in release speed monitoring, and V above V_rel."""
    reading, authority = situation.reading, situation.authority
    release = authority.release if isinstance(authority, Stop) else 0
    too_fast = situation.in_release and reading.V_est > release * NOTCHES_PER_KM_H
    return [Cause("release speed")] if too_fast else []


def triggers_of(situation: Situation) -> Triggers:
    """PROFILE "Triggers"."""
    reading, authority, release = situation.reading, situation.authority, above_release(situation)
    serv = over_a_limit(situation, dV_sbi, "d_SBI")
    emer = over_a_limit(situation, dV_ebi, "d_EBI")
    if isinstance(authority, Stop) and reading.front_end("min") > authority.eoa * GRAINS_PER_CM:
        emer.append(Cause("end of authority"))
    emer += release
    if serv and not situation.times.in_use:
        emer.append(Cause("no service brake"))
    return Triggers(
        over_a_limit(situation, no_margin, "d_P") + release, over_a_limit(situation, dV_warning, "d_W"), serv, emer
    )


class Commands(NamedTuple):
    """What a reading leaves, and the next one finds held."""

    tco: bool
    sb: bool
    eb: bool
    status: str


NOTHING = Commands(False, False, False, "N")  # before the first reading


class Decision(NamedTuple):
    """`why` says of the commands tco, sb and eb: "set", "held", "released by ..." or "off"."""

    commands: Commands
    state: str
    why: dict[str, str]


def command(is_set: object, held: bool, released: str) -> tuple[bool, str]:
    """A command: set, or held and not released; `released` says by what, and is empty where nothing releases it."""
    if is_set or not held:
        return bool(is_set), "set" if is_set else "off"
    return not released, f"released by {released}" if released else "held"


def state_of(situation: Situation) -> str:
    """PROFILE "Commands, state, status", state."""
    if situation.in_release:
        return "R"
    V, targets = situation.reading.V_est, situation.targets
    return "T" if any(V > each.target.speed_with(no_margin) and each.x > each.d_I for each in targets) else "C"


def decide(data: Data, situation: Situation, triggers: Triggers, before: Commands) -> Decision:
    """PROFILE "Commands, state, status", from the commands and the status that were held before."""
    over, warn, serv, emer = triggers
    early = "early release" if data.national.early_release and not over else ""
    eb, why_eb = command(emer, before.eb, "standstill" if situation.reading.V_est == 0 else early)
    slow = "" if over else "the permitted speed"
    in_use = situation.times.in_use
    sb, why_sb = command(serv and in_use, before.sb and in_use, slow)  # it may be held over a change of data
    tco, why_tco = command(warn or serv or emer, before.tco, slow)
    state = state_of(situation)
    rules = (
        ("X", eb or sb),
        ("W", warn or over and before.status in "WX"),
        ("O", over),
        ("I", state != "C"),
        ("N", True),
    )
    status = next(status for status, holds in rules if holds)
    return Decision(Commands(tco, sb, eb, status), state, {"tco": why_tco, "sb": why_sb, "eb": why_eb})
