"""Misreadings of PROFILE "Triggers"."""

from collections.abc import Callable
from typing import Any

from sdm.diagnosis.model import journey, speeds, triggers, units
from sdm.diagnosis.rules import Misreadings, always

OF_TRIGGERS = Misreadings()
TRIGGERS, OVER = (journey, "triggers_of"), (triggers, "over_a_limit")


def triggers_by(change: Callable[[Any, Any], dict[str, Any]]) -> Callable[[Any], Any]:
    """Other triggers, by the situation and those of the rule."""

    def make(rule: Any) -> Any:
        def triggers_of(situation: Any) -> Any:
            there = rule(situation)
            return there._replace(**change(situation, there))

        return triggers_of

    return make


def without(causes: Any, rule: str) -> Any:
    return [cause for cause in causes if cause.rule != rule]


@OF_TRIGGERS.add("overspeed in release speed monitoring isn't over", TRIGGERS)
def over_without_V_rel(rule: Any) -> Any:
    return triggers_by(lambda situation, there: {"over": without(there.over, "release speed")})(rule)


@OF_TRIGGERS.add("the release speed doesn't trigger the emergency brake", TRIGGERS)
def emer_without_V_rel(rule: Any) -> Any:
    return triggers_by(lambda situation, there: {"emer": without(there.emer, "release speed")})(rule)


@OF_TRIGGERS.add("a front end past the EOA doesn't trigger the emergency brake", TRIGGERS)
def end_passed_ignored(rule: Any) -> Any:
    return triggers_by(lambda situation, there: {"emer": without(there.emer, "end of authority")})(rule)


def end_passed_by(which: str, in_release_too: bool = True) -> Callable[[Any], Any]:
    def change(situation: Any, there: Any) -> dict[str, Any]:
        emer, authority = without(there.emer, "end of authority"), situation.authority
        if hasattr(authority, "eoa") and (in_release_too or not situation.in_release):
            if situation.reading.front_end(which) > authority.eoa * units.GRAINS_PER_CM:
                emer = [*emer, triggers.Cause("end of authority")]
        return {"emer": emer}

    return triggers_by(change)


OF_TRIGGERS.put(
    "end_passed_by_the_estimated_front_end",
    "the estimated front end past the EOA triggers the emergency brake, not the min safe one",
    end_passed_by("est"),
    TRIGGERS,
)
OF_TRIGGERS.put(
    "end_passed_by_the_max_safe_front_end",
    "the max safe front end past the EOA triggers the emergency brake, not the min safe one",
    end_passed_by("max"),
    TRIGGERS,
)
OF_TRIGGERS.put(
    "end_passed_not_in_release",
    "in release speed monitoring a front end past the EOA doesn't trigger the emergency brake",
    end_passed_by("min", False),
    TRIGGERS,
)


@OF_TRIGGERS.add("serv without a service brake in use doesn't trigger the emergency brake", TRIGGERS)
def no_emergency_for_the_service_brake(rule: Any) -> Any:
    return triggers_by(lambda situation, there: {"emer": without(there.emer, "no service brake")})(rule)


@OF_TRIGGERS.add("serv triggers the emergency brake too", TRIGGERS)
def serv_triggers_the_emergency_brake(rule: Any) -> Any:
    return triggers_by(lambda situation, there: {"emer": there.emer + there.serv})(rule)


@OF_TRIGGERS.add("the warning holds with overspeed", TRIGGERS)
def warning_with_overspeed(rule: Any) -> Any:
    return triggers_by(lambda situation, there: {"warn": there.over})(rule)


def by_limit(**names: tuple[str, Any]) -> Callable[[Any], Any]:
    """Triggers by other limits or margins."""

    def change(situation: Any, there: Any) -> dict[str, Any]:
        return {
            trigger: triggers.over_a_limit(situation, margin, name)
            + [cause for cause in getattr(there, trigger) if cause.rule not in ("ceiling", "target")]
            for trigger, (name, margin) in names.items()
        }

    return triggers_by(change)


for name, told, changes in (
    ("warn_at_P", "the warning is triggered at P", {"warn": ("d_P", speeds.dV_warning)}),
    ("serv_at_W", "the service brake is triggered at W", {"serv": ("d_W", speeds.dV_sbi)}),
    ("serv_at_EBI", "the service brake is triggered at the EBI", {"serv": ("d_EBI", speeds.dV_sbi)}),
    ("over_at_W", "overspeed begins at W", {"over": ("d_W", speeds.no_margin)}),
    ("over_at_I", "overspeed begins at I", {"over": ("d_I", speeds.no_margin)}),
    ("warn_with_dV_sbi", "the warning has the margin dV_sbi", {"warn": ("d_W", speeds.dV_sbi)}),
    ("serv_with_dV_ebi", "serv has the margin dV_ebi", {"serv": ("d_SBI", speeds.dV_ebi)}),
    ("emer_with_dV_sbi", "emer has the margin dV_sbi", {"emer": ("d_EBI", speeds.dV_sbi)}),
    ("warn_without_margin", "warn has no margin", {"warn": ("d_W", speeds.no_margin)}),
    ("serv_without_margin", "serv has no margin", {"serv": ("d_SBI", speeds.no_margin)}),
    ("emer_without_margin", "emer has no margin", {"emer": ("d_EBI", speeds.no_margin)}),
):
    OF_TRIGGERS.put(name, told, by_limit(**changes), TRIGGERS)


def over_a_limit_by(ceiling_margin: bool, target_margin: bool, is_at: bool = False) -> Any:
    """V above M and t with or without their margins, and front ends past a limit, or at it too."""

    def over_a_limit(situation: Any, margin: Any, name: str) -> Any:
        V, causes = situation.reading.V_est, []
        own = margin if ceiling_margin else speeds.no_margin
        if V > situation.M * units.NOTCHES_PER_KM_H + own(situation.M):
            causes.append(triggers.Cause("ceiling"))
        for each in situation.targets:
            limit = getattr(each, name)
            of = margin if target_margin else speeds.no_margin
            if limit is not None and (each.x > limit or is_at and each.x == limit) and V > each.target.speed_with(of):
                causes.append(triggers.Cause("target", each))
        return causes

    return over_a_limit


OF_TRIGGERS.put(
    "targets_without_margins",
    "a target's limit is passed above its speed, without the margins",
    always(over_a_limit_by(True, False)),
    OVER,
)
OF_TRIGGERS.put(
    "ceiling_without_margins",
    "the ceiling triggers without its margins",
    always(over_a_limit_by(False, True)),
    OVER,
)
OF_TRIGGERS.put(
    "at_a_limit_is_past_it",
    "a front end at a limit is past it",
    always(over_a_limit_by(True, True, True)),
    OVER,
)


@OF_TRIGGERS.add("the ceiling triggers nothing", OVER)
def ceiling_triggers_nothing(rule: Any) -> Any:
    return lambda situation, margin, name: without(rule(situation, margin, name), "ceiling")


@OF_TRIGGERS.add("a speed at the ceiling is above it", OVER)
def at_the_ceiling_is_above(rule: Any) -> Any:
    def over_a_limit(situation: Any, margin: Any, name: str) -> Any:
        causes = rule(situation, margin, name)
        at = situation.M * units.NOTCHES_PER_KM_H + margin(situation.M)
        return [triggers.Cause("ceiling"), *causes] if situation.reading.V_est == at else causes

    return over_a_limit
