"""Misreadings of PROFILE "Times" and "Until the emergency brake works"."""

from collections.abc import Callable
from typing import Any

from sdm.diagnosis.model import journey, limits, units
from sdm.diagnosis.rules import Misreadings

OF_TIMES = Misreadings()
TIMES, BEC = (journey, "times_of"), (limits, "until_the_emergency_brake_works")


def times(**changes: Callable[[Any, Any], Any]) -> Callable[[Any], Any]:
    """Times of which some are otherwise, by the data and the times."""

    def make(rule: Any) -> Any:
        def times_of(data: Any) -> Any:
            there = rule(data)
            return there._replace(**{name: change(data, there) for name, change in changes.items()})

        return times_of

    return make


def as_data(section: str, **values: Any) -> Callable[[Any], Any]:
    """Times of data with other values in a section."""

    def make(rule: Any) -> Any:
        def times_of(data: Any) -> Any:
            return rule(data._replace(**{section: getattr(data, section)._replace(**values)}))

        return times_of

    return make


def indication(T_bs: Any) -> Any:
    return max(4 * T_bs // 5, 50) + limits.T_driver


@OF_TIMES.add("the service brake's build-up time counts also where that brake isn't in use", TIMES)
def T_bs_though_not_in_use(rule: Any) -> Any:
    return times(
        T_bs=lambda data, there: data.train.service_time,
        T_indication=lambda data, there: indication(data.train.service_time),
    )(rule)


@OF_TIMES.add("the service brake's build-up time never counts", TIMES, parts=3)
def T_bs_left_out(rule: Any) -> Any:
    return times(T_bs=lambda data, there: 0, T_indication=lambda data, there: indication(0))(rule)


def T_traction(own: Callable[[Any, Any], Any]) -> Callable[[Any], Any]:
    """Another T_traction where the traction is cut off by the equipment, and T_berem after it."""

    def make(rule: Any) -> Any:
        def times_of(data: Any) -> Any:
            there = rule(data)
            traction = own(data, there) if data.train.traction_cutoff_interface else there.T_traction
            return there._replace(T_traction=traction, T_berem=max(data.train.emergency_time - traction, 0))

        return times_of

    return make


@OF_TIMES.add("T_traction is shortened by T_warning alone, not by T_bs too", TIMES)
def T_traction_less_T_warning(rule: Any) -> Any:
    return T_traction(lambda data, there: max(data.train.traction_cutoff_time - limits.T_warning, 0))(rule)


@OF_TIMES.add("T_traction is shortened by T_bs alone, not by T_warning too", TIMES)
def T_traction_less_T_bs(rule: Any) -> Any:
    return T_traction(lambda data, there: max(data.train.traction_cutoff_time - there.T_bs, 0))(rule)


@OF_TIMES.add("T_berem is the whole emergency build-up time, not less T_traction", TIMES)
def T_berem_whole(rule: Any) -> Any:
    return times(T_berem=lambda data, there: data.train.emergency_time)(rule)


@OF_TIMES.add("T_berem is left out", TIMES)
def T_berem_left_out(rule: Any) -> Any:
    return times(T_berem=lambda data, there: 0)(rule)


@OF_TIMES.add("T_traction is left out, and T_berem is the whole emergency build-up time", TIMES)
def T_traction_left_out(rule: Any) -> Any:
    return times(T_traction=lambda data, there: 0, T_berem=lambda data, there: data.train.emergency_time)(rule)


@OF_TIMES.add("T_indication is 5 s and T_driver, whatever T_bs is", TIMES)
def T_indication_without_T_bs(rule: Any) -> Any:
    return times(T_indication=lambda data, there: 50 + limits.T_driver)(rule)


@OF_TIMES.add("T_indication is 0.8 · T_bs and T_driver, also below 5 s", TIMES)
def T_indication_below_5_s(rule: Any) -> Any:
    return times(T_indication=lambda data, there: 4 * there.T_bs // 5 + limits.T_driver)(rule)


@OF_TIMES.add("T_indication has no T_driver", TIMES)
def T_indication_without_T_driver(rule: Any) -> Any:
    return times(T_indication=lambda data, there: there.T_indication - limits.T_driver)(rule)


@OF_TIMES.add("T_indication counts T_bs in full, not 0.8 of it", TIMES)
def T_indication_of_whole_T_bs(rule: Any) -> Any:
    return times(T_indication=lambda data, there: max(there.T_bs, 50) + limits.T_driver)(rule)


def bec(own: Callable[..., tuple[Any, Any]]) -> Callable[[Any], Any]:
    """V_bec and D_bec by other terms: own(V_est, V_delta0, V_delta1, V_delta2, V_target, T_traction, T_berem)."""

    def make(rule: Any) -> Any:
        def until_the_emergency_brake_works(data: Any, times: Any, reading: Any, V_target: Any) -> tuple[Any, Any]:
            V_delta0 = 0 if data.national.inhibit_under_reading else reading.under * units.NOTCHES_PER_MM_S
            A_est1 = max(reading.accel, 0)
            V_delta1 = A_est1 * times.T_traction * units.NOTCHES_PER_CM_S2_DS
            V_delta2 = min(A_est1, limits.A_EST2_MOST) * times.T_berem * units.NOTCHES_PER_CM_S2_DS
            target = V_target * units.NOTCHES_PER_KM_H
            return own(reading.V_est, V_delta0, V_delta1, V_delta2, target, times.T_traction, times.T_berem)

        return until_the_emergency_brake_works

    return make


def way(speed: Any, time: Any) -> Any:
    return units.distance_at(speed, time)


@OF_TIMES.add("D_bec counts V_delta1 in full, not half of it", BEC)
def D_bec_with_whole_V_delta1(rule: Any) -> Any:
    def own(V: Any, V0: Any, V1: Any, V2: Any, V_target: Any, T1: Any, T2: Any) -> tuple[Any, Any]:
        at_1 = max(V + V0 + V1, V_target)
        return at_1 + V2, way(at_1, T1) + way(at_1 + V2 // 2, T2)

    return bec(own)(rule)


@OF_TIMES.add("D_bec counts V_bec until the brake works, not V_delta2/2", BEC)
def D_bec_with_V_bec(rule: Any) -> Any:
    def own(V: Any, V0: Any, V1: Any, V2: Any, V_target: Any, T1: Any, T2: Any) -> tuple[Any, Any]:
        V_bec = max(V + V0 + V1, V_target) + V2
        return V_bec, way(max(V + V0 + V1 // 2, V_target), T1) + way(V_bec, T2)

    return bec(own)(rule)


@OF_TIMES.add("D_bec is V_est times the times, without under-reading and acceleration", BEC)
def D_bec_with_V_est(rule: Any) -> Any:
    def own(V: Any, V0: Any, V1: Any, V2: Any, V_target: Any, T1: Any, T2: Any) -> tuple[Any, Any]:
        return max(V + V0 + V1, V_target) + V2, way(max(V, V_target), T1 + T2)

    return bec(own)(rule)


@OF_TIMES.add("V_bec is V_est: neither under-reading nor acceleration count", BEC, parts=3)
def V_bec_is_V_est(rule: Any) -> Any:
    def own(V: Any, V0: Any, V1: Any, V2: Any, V_target: Any, T1: Any, T2: Any) -> tuple[Any, Any]:
        return max(V, V_target), way(max(V, V_target), T1 + T2)

    return bec(own)(rule)


@OF_TIMES.add("D_bec is left out", BEC)
def D_bec_left_out(rule: Any) -> Any:
    return lambda data, times, reading, V_target: (rule(data, times, reading, V_target)[0], 0)


@OF_TIMES.add("V_bec has no V_delta1", BEC)
def V_delta1_left_out(rule: Any) -> Any:
    def own(V: Any, V0: Any, V1: Any, V2: Any, V_target: Any, T1: Any, T2: Any) -> tuple[Any, Any]:
        at_1 = max(V + V0, V_target)
        return at_1 + V2, way(at_1, T1) + way(at_1 + V2 // 2, T2)

    return bec(own)(rule)


@OF_TIMES.add("V_bec has no V_delta2", BEC)
def V_delta2_left_out(rule: Any) -> Any:
    def own(V: Any, V0: Any, V1: Any, V2: Any, V_target: Any, T1: Any, T2: Any) -> tuple[Any, Any]:
        at_1 = max(V + V0 + V1, V_target)
        return at_1, way(max(V + V0 + V1 // 2, V_target), T1) + way(at_1, T2)

    return bec(own)(rule)


@OF_TIMES.add("V_bec and D_bec don't hold V_target as the least speed", BEC)
def V_target_no_least_speed(rule: Any) -> Any:
    return lambda data, times, reading, V_target: rule(data, times, reading, 0)


@OF_TIMES.add("A_est1 is the size of A_est, that of a train that brakes too", BEC)
def A_est1_of_braking_too(rule: Any) -> Any:
    def bec_of(data: Any, times: Any, reading: Any, V_target: Any) -> Any:
        return rule(data, times, reading._replace(accel=abs(reading.accel)), V_target)

    return bec_of


@OF_TIMES.add("A_est counts also where the train brakes: the speed falls until the brake works", BEC)
def A_est1_below_0(rule: Any) -> Any:
    def bec_of(data: Any, times: Any, reading: Any, V_target: Any) -> Any:
        V = reading.V_est + (0 if data.national.inhibit_under_reading else reading.under * units.NOTCHES_PER_MM_S)
        A2, target = min(reading.accel, limits.A_EST2_MOST), V_target * units.NOTCHES_PER_KM_H
        V1 = reading.accel * times.T_traction * units.NOTCHES_PER_CM_S2_DS
        V2 = A2 * times.T_berem * units.NOTCHES_PER_CM_S2_DS
        at_1 = max(V + V1, target)
        return at_1 + V2, way(max(V + V1 // 2, target), times.T_traction) + way(at_1 + V2 // 2, times.T_berem)

    return bec_of


@OF_TIMES.add("A_est doesn't count", BEC)
def A_est_left_out(rule: Any) -> Any:
    return lambda data, times, reading, V_target: rule(data, times, reading._replace(accel=0), V_target)


@OF_TIMES.add("A_est2 is A_est1, without a limit of 0.4 m/s²", (limits, "A_EST2_MOST"))
def A_est2_without_limit(rule: Any) -> Any:
    return 10_000


@OF_TIMES.add("A_est1 is limited to 0.4 m/s² too", BEC)
def A_est1_limited(rule: Any) -> Any:
    def bec_of(data: Any, times: Any, reading: Any, V_target: Any) -> Any:
        return rule(data, times, reading._replace(accel=min(reading.accel, limits.A_EST2_MOST)), V_target)

    return bec_of
