"""Misreadings of PROFILE "Commands, state, status" and "The row"."""

from collections.abc import Callable
from typing import Any

from sdm.diagnosis.model import journey, rows, speeds, triggers, units
from sdm.diagnosis.rules import Misreadings

OF_COMMANDS = Misreadings()
DECIDE, STATE = (journey, "decide"), (triggers, "state_of")
Decided = Callable[[Any, Any, Any, Any, Any], dict[str, Any]]


def decided(change: Decided) -> Callable[[Any], Any]:
    """Other commands, by the data, the situation, the triggers, what was held before, and the rule's decision. The
    status follows from the commands where it is left as it is."""

    def make(rule: Any) -> Any:
        def decide(data: Any, situation: Any, found: Any, before: Any) -> Any:
            there = rule(data, situation, found, before)
            now = there.commands._replace(**change(data, situation, found, before, there))
            braked, was = now.eb or now.sb, there.commands.eb or there.commands.sb
            if braked and not was:
                now = now._replace(status="X")
            elif was and not braked and now.status == "X":
                now = now._replace(status=status_without_brake(found, before, there.state))
            return there._replace(commands=now)

        return decide

    return make


def status_without_brake(found: Any, before: Any, state: str) -> str:
    if found.warn or found.over and before.status in "WX":
        return "W"
    return "O" if found.over else "I" if state != "C" else "N"


def in_use(situation: Any, command: bool) -> bool:
    return command and situation.times.in_use


def held_while(names: tuple[str, ...], holds: Callable[[Any, Any, Any], bool]) -> Callable[[Any], Any]:
    """Commands that are held longer: while something holds, by the situation, the triggers and the decision."""

    def change(data: Any, situation: Any, found: Any, before: Any, there: Any) -> dict[str, Any]:
        longer = holds(situation, found, there)
        return {
            name: getattr(there.commands, name)
            or getattr(before, name)
            and longer
            and (name != "sb" or situation.times.in_use)
            for name in names
        }

    return decided(change)


def not_held(names: tuple[str, ...]) -> Callable[[Any], Any]:
    """Commands that stand only while a cause of them does."""

    def change(data: Any, situation: Any, found: Any, before: Any, there: Any) -> dict[str, Any]:
        causes = {"tco": found.warn or found.serv or found.emer, "sb": found.serv, "eb": found.emer}
        return {name: getattr(there.commands, name) and bool(causes[name]) for name in names}

    return decided(change)


def moves(situation: Any, found: Any, there: Any) -> bool:
    return bool(situation.reading.V_est > 0)


def is_target(situation: Any, found: Any, there: Any) -> bool:
    return bool(there.state != "C")


for names in (("sb",), ("tco",), ("tco", "sb"), ("eb",)):
    label = " and ".join(
        {"sb": "the service brake", "tco": "the cut-off", "eb": "the emergency brake"}[n] for n in names
    )
    verb = "are" if len(names) > 1 else "is"
    key = "_and_".join(names)
    count = len(names)
    OF_COMMANDS.put(
        f"{key}_not_held",
        f"{label} {verb} commanded only while a cause stands",
        not_held(names),
        DECIDE,
        parts=count,
    )
    if names == ("eb",):
        continue
    OF_COMMANDS.put(
        f"{key}_held_until_standstill",
        f"{label} {verb} held until standstill",
        held_while(names, moves),
        DECIDE,
        parts=count,
    )
    OF_COMMANDS.put(
        f"{key}_held_until_C",
        f"{label} {verb} held until the state is C, not until the permitted speed",
        held_while(names, is_target),
        DECIDE,
        parts=count,
    )


@OF_COMMANDS.add("an early release comes below the warning already", DECIDE)
def early_release_below_the_warning(rule: Any) -> Any:
    def change(data: Any, situation: Any, found: Any, before: Any, there: Any) -> dict[str, Any]:
        return {"eb": there.commands.eb and not (data.national.early_release and not found.warn and not found.emer)}

    return decided(change)(rule)


@OF_COMMANDS.add("the emergency brake is held at standstill too", DECIDE)
def eb_held_at_standstill(rule: Any) -> Any:
    return held_while(("eb",), lambda situation, found, there: bool(situation.reading.V_est == 0))(rule)


def set_by(name: str, of: tuple[str, ...]) -> Callable[[Any], Any]:
    """A command that other triggers set."""

    def change(data: Any, situation: Any, found: Any, before: Any, there: Any) -> dict[str, Any]:
        is_set = any(getattr(found, trigger) for trigger in of)
        held = getattr(before, name) and bool(found.over)
        return {name: bool(is_set or held)}

    return decided(change)


OF_COMMANDS.put("tco_by_warn_alone", "the cut-off is set by warn alone", set_by("tco", ("warn",)), DECIDE)
OF_COMMANDS.put(
    "tco_by_the_brakes_alone",
    "the cut-off comes with the brakes, not with the warning",
    set_by("tco", ("serv", "emer")),
    DECIDE,
)
OF_COMMANDS.put("tco_by_serv_and_warn", "the cut-off isn't set by emer", set_by("tco", ("warn", "serv")), DECIDE)
OF_COMMANDS.put("tco_by_over", "the cut-off is set by overspeed", set_by("tco", ("over",)), DECIDE)


@OF_COMMANDS.add("there is no cut-off command", DECIDE)
def tco_never(rule: Any) -> Any:
    return decided(lambda *_: {"tco": False})(rule)


@OF_COMMANDS.add("the cut-off is commanded only where the equipment can cut the traction off", DECIDE)
def tco_with_the_interface_alone(rule: Any) -> Any:
    def change(data: Any, situation: Any, found: Any, before: Any, there: Any) -> dict[str, Any]:
        return {"tco": there.commands.tco and data.train.traction_cutoff_interface}

    return decided(change)(rule)


@OF_COMMANDS.add("the service brake comes with the emergency brake", DECIDE)
def sb_with_eb(rule: Any) -> Any:
    def change(data: Any, situation: Any, found: Any, before: Any, there: Any) -> dict[str, Any]:
        return {"sb": in_use(situation, there.commands.sb or there.commands.eb)}

    return decided(change)(rule)


@OF_COMMANDS.add("the service brake isn't commanded while the emergency brake is", DECIDE)
def sb_not_with_eb(rule: Any) -> Any:
    return decided(lambda data, situation, found, before, there: {"sb": there.commands.sb and not there.commands.eb})(
        rule
    )


@OF_COMMANDS.add("the service brake is commanded though it isn't in use", DECIDE)
def sb_though_not_in_use(rule: Any) -> Any:
    def change(data: Any, situation: Any, found: Any, before: Any, there: Any) -> dict[str, Any]:
        return {"sb": bool(found.serv or before.sb and found.over)}

    return decided(change)(rule)


def status_by(own: Callable[[Any, Any, Any, Any], str | None]) -> Callable[[Any], Any]:
    """Another status, by the situation, the triggers, what was held before and the decision; None leaves it."""

    def make(rule: Any) -> Any:
        def decide(data: Any, situation: Any, found: Any, before: Any) -> Any:
            there = rule(data, situation, found, before)
            status = own(situation, found, before, there)
            return there if status is None else there._replace(commands=there.commands._replace(status=status))

        return decide

    return make


def no_warning_held(situation: Any, found: Any, before: Any, there: Any) -> str | None:
    return "O" if there.commands.status == "W" and not found.warn else None


def no_indication_in_R(situation: Any, found: Any, before: Any, there: Any) -> str | None:
    return "N" if there.commands.status == "I" and there.state == "R" else None


def no_indication_in_T(situation: Any, found: Any, before: Any, there: Any) -> str | None:
    return "N" if there.commands.status == "I" and there.state == "T" else None


def intervention_while_triggered(situation: Any, found: Any, before: Any, there: Any) -> str | None:
    if there.commands.status != "X" or found.emer or found.serv:
        return None
    return status_without_brake(found, before, there.state)


def intervention_of_the_emergency_brake(situation: Any, found: Any, before: Any, there: Any) -> str | None:
    if there.commands.status != "X" or there.commands.eb:
        return None
    return status_without_brake(found, before, there.state)


def warning_from_overspeed(situation: Any, found: Any, before: Any, there: Any) -> str | None:
    return "W" if there.commands.status == "O" else None


for name, told, own in (
    ("warning_not_held", "the status W isn't held by overspeed", no_warning_held),
    ("no_indication_in_release", "in state R the status is N, not I", no_indication_in_R),
    ("no_indication_in_target", "in state T the status is N, not I", no_indication_in_T),
    ("X_while_triggered", "the status X ends with its cause, not with the held brake", intervention_while_triggered),
    (
        "X_of_the_emergency_brake",
        "the status X is that of the emergency brake alone",
        intervention_of_the_emergency_brake,
    ),
    ("W_with_overspeed", "overspeed is shown as W", warning_from_overspeed),
):
    OF_COMMANDS.put(name, told, status_by(own), DECIDE)


def state_by(own: Callable[[Any], str | None]) -> Callable[[Any], Any]:
    """Another state; None leaves it."""
    return lambda rule: lambda situation: own(situation) or rule(situation)


def past(situation: Any, name: str, margin: bool = True) -> bool:
    V = situation.reading.V_est
    return any(
        getattr(each, name) is not None
        and each.x > getattr(each, name)
        and V > (each.target.speed_with(speeds.no_margin) if margin else -1)
        for each in situation.targets
    )


for name, told, state in (
    ("no_state_R", "release speed monitoring isn't a state of its own", lambda it: "T" if past(it, "d_I") else "C"),
    (
        "T_from_P_on",
        "target speed monitoring begins at P, not at I",
        lambda it: "R" if it.in_release else "T" if past(it, "d_P") else "C",
    ),
    (
        "T_from_W_on",
        "target speed monitoring begins at W, not at I",
        lambda it: "R" if it.in_release else "T" if past(it, "d_W") else "C",
    ),
    (
        "T_of_faster_targets",
        "target speed monitoring counts faster targets too",
        lambda it: "R" if it.in_release else "T" if past(it, "d_I", False) else "C",
    ),
):
    OF_COMMANDS.put(name, told, state_by(state), STATE)


ROW = (journey, "row_of")


def columns_by(counts: Callable[[Any, Any], bool]) -> Callable[[Any], Any]:
    """Rows whose places count other targets, by the target's limits and V_est."""

    def make(rule: Any) -> Any:
        def row_of(situation: Any, decision: Any) -> Any:
            there = rule(situation, decision)
            found = [each for each in situation.targets if counts(each, situation.reading.V_est)]
            places = [
                [getattr(each, name) for each in found if getattr(each, name) is not None] for name in rows.COLUMNS
            ]
            return there._replace(limits=[units.printed(min(each, default=None)) for each in places])

        return row_of

    return make


OF_COMMANDS.put(
    "columns_of_faster_targets",
    "the places count targets that are faster than the train too",
    columns_by(lambda each, V: True),
    ROW,
)
OF_COMMANDS.put(
    "columns_of_slower_targets",
    "the places don't count a target of the train's own speed",
    columns_by(lambda each, V: bool(each.target.V_target * units.NOTCHES_PER_KM_H < V)),
    ROW,
)
OF_COMMANDS.put(
    "columns_of_ends",
    "the places are those of the authority's end alone",
    columns_by(lambda each, V: bool(each.target.kind != "Mrsp")),
    ROW,
)
OF_COMMANDS.put(
    "columns_of_falls",
    "the places are those of falls alone",
    columns_by(lambda each, V: bool(each.target.kind == "Mrsp")),
    ROW,
)
