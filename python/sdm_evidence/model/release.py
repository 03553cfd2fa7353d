"""Release speed monitoring (PROFILE "Release speed monitoring", "A calculated release speed")."""
from sdm_evidence.model.curves import Curves
from sdm_evidence.model.data import Authority, Stop
from sdm_evidence.model.limits import Times
from sdm_evidence.model.units import GRAINS_PER_CM, NOTCHES_PER_KM_H, Number, distance_at

MOST_RELEASE = 500  # km/h


def release_start(times: Times, curves: Curves, authority: Authority, exact: bool = False) -> Number | None:
    """PROFILE "Release speed monitoring": the start of it, None where there is no release speed."""
    if not (isinstance(authority, Stop) and authority.release > 0):
        return None
    V_rel = authority.release * NOTCHES_PER_KM_H
    d_SBD = curves.d_SBD(authority.eoa * GRAINS_PER_CM, 0, V_rel, exact)
    d_EBD = curves.d_EBD(authority.svl * GRAINS_PER_CM, 0, V_rel, exact)
    until_braked = times.T_traction + times.T_berem + times.T_bs
    return min(d_SBD - distance_at(V_rel, times.T_bs), d_EBD - distance_at(V_rel, until_braked))


def latest_trip(curves: Curves, T_be: int, svl: int, v: int, exact: bool = False) -> Number:
    """PROFILE "A calculated release speed": the last place in grains at which a trip with v km/h stops by the SvL."""
    V = v * NOTCHES_PER_KM_H
    return curves.d_EBD(svl * GRAINS_PER_CM, 0, V, exact) - distance_at(V, T_be)


def fits(curves: Curves, T_be: int, svl: int, trip: int, v: int) -> bool:
    """PROFILE "A calculated release speed": whether v km/h fits the trip place; stepped, as all that is decided."""
    return latest_trip(curves, T_be, svl, v) >= trip * GRAINS_PER_CM


def calculated(curves: Curves, T_be: int, svl: int, trip: int) -> int:
    """PROFILE "A calculated release speed": the greatest whole km/h that fits; 0 does, where trip <= svl."""
    return max(v for v in range(MOST_RELEASE + 1) if fits(curves, T_be, svl, trip, v))
