"""Limits (PROFILE "Targets", "Times", "Until the emergency brake works", "Limits of a target")."""
from typing import Any, NamedTuple

from sdm_evidence.model.curves import Curves
from sdm_evidence.model.data import Authority, Data, Limit
from sdm_evidence.model.records import Reading
from sdm_evidence.model.speeds import Margin, dV_ebi, falls
from sdm_evidence.model.units import (
    GRAINS_PER_CM,
    NOTCHES_PER_CM_S2_DS,
    NOTCHES_PER_KM_H,
    NOTCHES_PER_MM_S,
    Number,
    Steps,
    distance_at,
)

T_warning, T_driver, A_EST2_MOST = 20, 40, 40  # ds, ds, cm/s²


class Target(NamedTuple):
    """PROFILE "Targets": kind "Mrsp", "Loa", "Eoa" or "Svl"; place in grains; speed in km/h."""

    kind: str
    place: int
    V_target: int

    @property
    def is_stop(self) -> bool:
        return self.kind in ("Eoa", "Svl")

    def speed_with(self, margin: Margin) -> int:
        """V_target with one of its margins, in notches; both count as 0 for Eoa and Svl."""
        return 0 if self.is_stop else self.V_target * NOTCHES_PER_KM_H + margin(self.V_target)

    @property
    def foot_speed(self) -> int:
        """w in notches."""
        return self.speed_with(dV_ebi)

    @property
    def compared(self) -> str:
        """The front end that is compared."""
        return "est" if self.kind == "Eoa" else "max"


class Times(NamedTuple):
    """PROFILE "Times", in ds. `in_use` is said of the service brake."""

    in_use: bool
    T_bs: int
    T_traction: int
    T_berem: int
    T_indication: int


def times_of(data: Data) -> Times:
    """PROFILE "Times"."""
    train = data.train
    in_use = train.service_brake and data.national.service_in_target
    T_bs = train.service_time if in_use else 0
    T_traction = train.traction_cutoff_time
    if train.traction_cutoff_interface:
        T_traction = max(T_traction - (T_warning + T_bs), 0)
    T_berem = max(train.emergency_time - T_traction, 0)
    return Times(in_use, T_bs, T_traction, T_berem, max(4 * T_bs // 5, 50) + T_driver)


def until_the_emergency_brake_works(data: Data, times: Times, reading: Reading, V_target: int) -> tuple[Number, Number]:
    """PROFILE "Until the emergency brake works": V_bec in notches, D_bec in grains."""
    V_delta0 = 0 if data.national.inhibit_under_reading else reading.under * NOTCHES_PER_MM_S
    A_est1 = max(reading.accel, 0)
    A_est2 = min(A_est1, A_EST2_MOST)
    V_delta1 = A_est1 * times.T_traction * NOTCHES_PER_CM_S2_DS
    V_delta2 = A_est2 * times.T_berem * NOTCHES_PER_CM_S2_DS
    V_target *= NOTCHES_PER_KM_H
    V_after_traction = max(reading.V_est + V_delta0 + V_delta1, V_target)
    V_bec = V_after_traction + V_delta2
    D_bec = distance_at(max(reading.V_est + V_delta0 + V_delta1 // 2, V_target), times.T_traction)
    return V_bec, D_bec + distance_at(V_after_traction + V_delta2 // 2, times.T_berem)


class TargetLimits(NamedTuple):
    """PROFILE "Limits of a target". x is the front end that is compared; `curve` is d_EBD(V_bec), for Eoa d_SBD(V_est);
    `guide` is d_guide(V_est). All places are in grains (fractions by exact curves); None is none."""

    target: Target
    x: int
    V_bec: Any  # as D_bec and d_EBI a number, and None of the EOA
    D_bec: Any
    curve: Number
    guide: Number | None
    d_EBI: Any
    d_SBI: Number
    d_W: Number
    d_P: Number
    d_I: Number


def limits_of(
    data: Data, times: Times, curves: Curves, reading: Reading, target: Target, exact: bool = False
) -> TargetLimits:
    """PROFILE "Limits of a target", by the stepped curves or the exact ones."""
    V_est, f, w = reading.V_est, target.place, target.foot_speed
    if target.kind == "Eoa":
        V_bec = D_bec = d_EBI = None
        curve = curves.d_SBD(f, w, V_est, exact)
        d_SBI = curve - distance_at(V_est, times.T_bs)
    else:
        V_bec, D_bec = until_the_emergency_brake_works(data, times, reading, target.V_target)
        curve = curves.d_EBD(f, w, V_bec, exact)
        d_EBI = curve - D_bec
        d_SBI = d_EBI - distance_at(V_est, times.T_bs)
    d_P, guide = d_SBI - distance_at(V_est, T_driver), None
    if data.national.guidance and target.kind != "Svl":
        guide = curves.d_guide(f, target.V_target * NOTCHES_PER_KM_H, V_est, exact)
        d_P = min(d_P, guide)
    return TargetLimits(
        target,
        reading.front_end(target.compared),
        V_bec,
        D_bec,
        curve,
        guide,
        d_EBI,
        d_SBI,
        d_SBI - distance_at(V_est, T_warning),
        d_P,
        d_P - distance_at(V_est, times.T_indication),
    )


def targets_of(profile: Steps[int], authority: Authority, reading: Reading, in_release: bool) -> list[Target]:
    """PROFILE "Targets", at a reading: the falls by their places, then the ends of the authority."""
    end, x = authority.loa if isinstance(authority, Limit) else authority.eoa, reading.front_end("max")
    targets = [
        Target("Mrsp", cell * GRAINS_PER_CM, speed)
        for cell, speed in falls(profile)
        if cell * GRAINS_PER_CM > x and cell <= end
    ]
    if isinstance(authority, Limit):
        targets.append(Target("Loa", authority.loa * GRAINS_PER_CM, authority.speed))
    elif not in_release:
        targets.append(Target("Eoa", authority.eoa * GRAINS_PER_CM, 0))
        targets.append(Target("Svl", authority.svl * GRAINS_PER_CM, 0))
    return targets


class Situation(NamedTuple):
    """What a reading is decided on: M in km/h, the start of release speed monitoring or None, whether the reading is in
    it, and the limits of its targets in order."""

    reading: Reading
    authority: Authority
    times: Times
    M: int
    release_start: Number | None
    in_release: bool
    targets: list[TargetLimits]
