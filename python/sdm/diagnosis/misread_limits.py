"""Misreadings of PROFILE "Targets" and "Limits of a target"."""

from collections.abc import Callable
from typing import Any

from sdm.diagnosis.misread_times import way
from sdm.diagnosis.model import journey, limits, speeds, units
from sdm.diagnosis.rules import Misreadings

OF_LIMITS = Misreadings()
LIMITS_OF, TARGETS = (journey, "limits_of"), (journey, "targets_of")
COMPARED, FOOT = (limits.Target, "compared"), (limits.Target, "foot_speed")


def from_SBI(data: Any, times: Any, reading: Any, each: Any, d_SBI: Any) -> Any:
    """The limits of a target with another SBI."""
    V = reading.V_est
    d_P = d_SBI - way(V, limits.T_driver)
    return from_P(
        times, reading, each._replace(d_SBI=d_SBI, d_W=d_SBI - way(V, limits.T_warning)), with_guide(each, d_P)
    )


def with_guide(each: Any, d_P: Any) -> Any:
    return d_P if each.guide is None else min(d_P, each.guide)


def from_P(times: Any, reading: Any, each: Any, d_P: Any) -> Any:
    """The limits of a target with another P."""
    return each._replace(d_P=d_P, d_I=d_P - way(reading.V_est, times.T_indication))


def limits_by(change: Callable[[Any, Any, Any, Any, Any], Any]) -> Callable[[Any], Any]:
    """The limits of a target, changed by data, times, curves, reading and what they are."""

    def make(rule: Any) -> Any:
        def limits_of(data: Any, times: Any, curves: Any, reading: Any, target: Any, exact: bool = False) -> Any:
            return change(data, times, curves, reading, rule(data, times, curves, reading, target, exact))

        return limits_of

    return make


@OF_LIMITS.add("the SBI of the EBD has no T_bs", LIMITS_OF)
def SBI_of_the_EBD_without_T_bs(rule: Any) -> Any:
    def change(data: Any, times: Any, curves: Any, reading: Any, each: Any) -> Any:
        return each if each.d_EBI is None else from_SBI(data, times, reading, each, each.d_EBI)

    return limits_by(change)(rule)


@OF_LIMITS.add("the SBI of the EOA has no T_bs", LIMITS_OF)
def SBI_of_the_EOA_without_T_bs(rule: Any) -> Any:
    def change(data: Any, times: Any, curves: Any, reading: Any, each: Any) -> Any:
        return each if each.d_EBI is not None else from_SBI(data, times, reading, each, each.curve)

    return limits_by(change)(rule)


@OF_LIMITS.add("no SBI has T_bs", LIMITS_OF, parts=2)
def SBI_without_T_bs(rule: Any) -> Any:
    def change(data: Any, times: Any, curves: Any, reading: Any, each: Any) -> Any:
        return from_SBI(data, times, reading, each, each.curve if each.d_EBI is None else each.d_EBI)

    return limits_by(change)(rule)


@OF_LIMITS.add("the SBI is that of the SBD for all targets, not that of the EBD", LIMITS_OF)
def SBI_by_the_SBD(rule: Any) -> Any:
    def change(data: Any, times: Any, curves: Any, reading: Any, each: Any) -> Any:
        if each.d_EBI is None:
            return each
        curve = curves.d_SBD(each.target.place, each.target.foot_speed, reading.V_est)
        return from_SBI(data, times, reading, each, curve - way(reading.V_est, times.T_bs))

    return limits_by(change)(rule)


@OF_LIMITS.add("W lies T_warning before P, not before the SBI", LIMITS_OF)
def W_from_P(rule: Any) -> Any:
    def change(data: Any, times: Any, curves: Any, reading: Any, each: Any) -> Any:
        return each._replace(d_W=each.d_P - way(reading.V_est, limits.T_warning))

    return limits_by(change)(rule)


@OF_LIMITS.add("P is T_driver before W, not before the SBI", LIMITS_OF)
def P_from_W(rule: Any) -> Any:
    def change(data: Any, times: Any, curves: Any, reading: Any, each: Any) -> Any:
        return from_P(times, reading, each, with_guide(each, each.d_W - way(reading.V_est, limits.T_driver)))

    return limits_by(change)(rule)


@OF_LIMITS.add("I lies before the P of the SBI, not before that of the guidance curve", LIMITS_OF)
def I_from_the_SBI(rule: Any) -> Any:
    def change(data: Any, times: Any, curves: Any, reading: Any, each: Any) -> Any:
        before = limits.T_driver + times.T_indication
        return each._replace(d_I=each.d_SBI - way(reading.V_est, before))

    return limits_by(change)(rule)


@OF_LIMITS.add("P is the guidance curve's also where that of the SBI is earlier", LIMITS_OF)
def P_by_guidance_alone(rule: Any) -> Any:
    def change(data: Any, times: Any, curves: Any, reading: Any, each: Any) -> Any:
        return each if each.guide is None else from_P(times, reading, each, each.guide)

    return limits_by(change)(rule)


def guided(kinds: tuple[str, ...], with_margin: bool = False) -> Callable[[Any], Any]:
    """Guidance curves for some kinds of targets."""

    def change(data: Any, times: Any, curves: Any, reading: Any, each: Any) -> Any:
        target, guide = each.target, None
        if data.national.guidance and target.kind in kinds:
            w = target.foot_speed if with_margin else target.V_target * units.NOTCHES_PER_KM_H
            guide = curves.d_guide(target.place, w, reading.V_est)
        d_P = each.d_SBI - way(reading.V_est, limits.T_driver)
        return from_P(times, reading, each._replace(guide=guide), d_P if guide is None else min(d_P, guide))

    return limits_by(change)


for name, told, kinds in (
    ("guidance_for_all", "the SvL has a guidance curve too", ("Mrsp", "Loa", "Eoa", "Svl")),
    ("guidance_for_the_SvL_not_the_EOA", "the SvL has a guidance curve, and not the EOA", ("Mrsp", "Loa", "Svl")),
    ("guidance_not_for_the_EOA", "the EOA has no guidance curve", ("Mrsp", "Loa")),
    ("guidance_for_the_EOA_alone", "only the EOA has a guidance curve", ("Eoa",)),
):
    OF_LIMITS.put(name, told, guided(kinds), LIMITS_OF)


@OF_LIMITS.add("the foot of the guidance curve has the target's speed with dV_ebi", LIMITS_OF)
def guidance_foot_with_margin(rule: Any) -> Any:
    return guided(("Mrsp", "Loa", "Eoa"), True)(rule)


@OF_LIMITS.add("the foot of the EBD has the target's speed without dV_ebi", FOOT)
def foot_without_margin(rule: Any) -> Any:
    return property(lambda target: target.V_target * units.NOTCHES_PER_KM_H)


@OF_LIMITS.add("the foot of the EBD has the target's speed with dV_sbi, not dV_ebi", FOOT)
def foot_with_dV_sbi(rule: Any) -> Any:
    return property(lambda target: target.speed_with(speeds.dV_sbi))


def compared(**ends: str) -> Callable[[Any], Any]:
    """Another front end that some kinds of targets compare."""
    return lambda rule: property(lambda target: ends.get(target.kind) or rule.fget(target))


@OF_LIMITS.add("the EOA compares the max safe front end, not the estimated one", COMPARED)
def EOA_by_the_max_safe_front_end(rule: Any) -> Any:
    return compared(Eoa="max")(rule)


@OF_LIMITS.add("the EOA compares the min safe front end, not the estimated one", COMPARED)
def EOA_by_the_min_safe_front_end(rule: Any) -> Any:
    return compared(Eoa="min")(rule)


@OF_LIMITS.add("the SvL compares the estimated front end, not the max safe one", COMPARED)
def SvL_by_the_estimated_front_end(rule: Any) -> Any:
    return compared(Svl="est")(rule)


@OF_LIMITS.add("falls and the LOA compare the estimated front end, not the max safe one", COMPARED)
def speeds_by_the_estimated_front_end(rule: Any) -> Any:
    return compared(Mrsp="est", Loa="est")(rule)


@OF_LIMITS.add("all targets compare the estimated front end", COMPARED, parts=2)
def all_by_the_estimated_front_end(rule: Any) -> Any:
    return compared(Mrsp="est", Loa="est", Svl="est")(rule)


def targets(change: Callable[[list[Any], Any, Any, Any, bool], list[Any]]) -> Callable[[Any], Any]:
    """Other targets, by those of the rule, the profile, the authority, the reading, and whether it is in release."""

    def make(rule: Any) -> Any:
        def targets_of(profile: Any, authority: Any, reading: Any, in_release: bool) -> Any:
            return change(rule(profile, authority, reading, in_release), profile, authority, reading, in_release)

        return targets_of

    return make


@OF_LIMITS.add("falls past the end of the authority are targets too", TARGETS)
def falls_past_the_end(rule: Any) -> Any:
    def change(found: list[Any], profile: Any, authority: Any, reading: Any, in_release: bool) -> list[Any]:
        x = reading.front_end("max")
        places = [(cell * units.GRAINS_PER_CM, speed) for cell, speed in speeds.falls(profile)]
        return [limits.Target("Mrsp", place, speed) for place, speed in places if place > x] + [
            each for each in found if each.kind != "Mrsp"
        ]

    return targets(change)(rule)


@OF_LIMITS.add("falls are targets until the estimated front end has passed them, not the max safe one", TARGETS)
def falls_until_the_estimated_front_end(rule: Any) -> Any:
    return lambda profile, authority, reading, in_release: rule(
        profile, authority, reading._replace(max=reading.est), in_release
    )


@OF_LIMITS.add("falls are targets until the min safe front end has passed them, not the max safe one", TARGETS)
def falls_until_the_min_safe_front_end(rule: Any) -> Any:
    return lambda profile, authority, reading, in_release: rule(
        profile, authority, reading._replace(max=reading.min), in_release
    )


@OF_LIMITS.add("falls of the speed profile are no targets", TARGETS)
def falls_no_targets(rule: Any) -> Any:
    return targets(lambda found, *_: [each for each in found if each.kind != "Mrsp"])(rule)


@OF_LIMITS.add("the nearest fall alone is a target", TARGETS)
def nearest_fall_alone(rule: Any) -> Any:
    def change(found: list[Any], *_: Any) -> list[Any]:
        there = [each for each in found if each.kind == "Mrsp"]
        return there[:1] + [each for each in found if each.kind != "Mrsp"]

    return targets(change)(rule)


@OF_LIMITS.add("the SvL is no target", TARGETS)
def SvL_no_target(rule: Any) -> Any:
    return targets(lambda found, *_: [each for each in found if each.kind != "Svl"])(rule)


@OF_LIMITS.add("the EOA is no target", TARGETS)
def EOA_no_target(rule: Any) -> Any:
    return targets(lambda found, *_: [each for each in found if each.kind != "Eoa"])(rule)


@OF_LIMITS.add("the SvL lies at the EOA", TARGETS)
def SvL_at_the_EOA(rule: Any) -> Any:
    def change(found: list[Any], profile: Any, authority: Any, reading: Any, in_release: bool) -> list[Any]:
        return [
            each._replace(place=authority.eoa * units.GRAINS_PER_CM) if each.kind == "Svl" else each for each in found
        ]

    return targets(change)(rule)


@OF_LIMITS.add("the EOA lies at the SvL", TARGETS)
def EOA_at_the_SvL(rule: Any) -> Any:
    def change(found: list[Any], profile: Any, authority: Any, reading: Any, in_release: bool) -> list[Any]:
        return [
            each._replace(place=authority.svl * units.GRAINS_PER_CM) if each.kind == "Eoa" else each for each in found
        ]

    return targets(change)(rule)


@OF_LIMITS.add("EOA and SvL stay targets in release speed monitoring", TARGETS)
def ends_stay_targets_in_release(rule: Any) -> Any:
    return lambda profile, authority, reading, in_release: rule(profile, authority, reading, False)
