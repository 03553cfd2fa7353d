"""`why` (PROFILE "Causes", FORMATS "`why`"): the first cause of each trigger, and how each command stands."""
from sdm_evidence.model.display import KINDS
from sdm_evidence.model.journey import Cycle, Supervisor
from sdm_evidence.model.triggers import Cause
from sdm_evidence.model.units import printed

LIMITS = {"over": "d_P", "warn": "d_W", "serv": "d_SBI", "emer": "d_EBI"}  # what a target is passed by


def cause_text(trigger: str, causes: list[Cause]) -> str:
    """The first of the causes of a trigger, `-` where it has none."""
    if not causes:
        return "-"
    rule, by = causes[0]
    if by is None:
        return rule
    place, limit = printed(by.target.place), printed(getattr(by, LIMITS[trigger]))
    return f"{rule} {KINDS[by.target.kind]} {place} {by.target.V_target} {limit}"


def standing_text(why: str, until: str) -> str:
    """How a command stands after a reading, by why it is so: set, held until something, else off."""
    return f"held until {until}" if why == "held" else why if why == "set" else "off"


def causes_text(supervisor: Supervisor, cycle: Cycle) -> str:
    """The line of a reading that was taken."""
    emergency = "standstill or permitted speed" if supervisor.data.national.early_release else "standstill"
    until = {"tco": "permitted speed", "sb": "permitted speed", "eb": emergency}
    causes = [cause_text(trigger, found) for trigger, found in cycle.triggers._asdict().items()]
    commands = [standing_text(cycle.decision.why[name], until[name]) for name in until]
    return ",".join([str(cycle.situation.reading.time), *causes, *commands]) + "\n"
