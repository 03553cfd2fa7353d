"""Misreadings of PROFILE "Release speed monitoring" and "A calculated release speed"."""

from collections.abc import Callable
from typing import Any

from sdm.diagnosis.misread_times import way
from sdm.diagnosis.model import journey, release, units
from sdm.diagnosis.rules import Misreadings

OF_RELEASE = Misreadings()
START = (journey, "release_start")


def start(own: Callable[[Any, Any, Any], Any]) -> Callable[[Any], Any]:
    """Another start of release speed monitoring, by the times, and by what lies before EOA and SvL at V_rel."""

    def make(rule: Any) -> Any:
        def release_start(times: Any, curves: Any, authority: Any, exact: bool = False) -> Any:
            if rule(times, curves, authority, exact) is None:
                return None
            V = authority.release * units.NOTCHES_PER_KM_H
            d_SBD = curves.d_SBD(authority.eoa * units.GRAINS_PER_CM, 0, V, exact)
            d_EBD = curves.d_EBD(authority.svl * units.GRAINS_PER_CM, 0, V, exact)
            T = times.T_traction + times.T_berem + times.T_bs
            return own((d_SBD, way(V, times.T_bs)), (d_EBD, way(V, T)), way(V, times.T_bs))

        return release_start

    return make


for name, told, own in (
    (
        "release_start_without_T_bs_of_the_EOA",
        "release speed monitoring starts at d_SBD(V_rel), without T_bs",
        lambda eoa, svl, T_bs: min(eoa[0], svl[0] - svl[1]),
    ),
    (
        "release_start_without_T_bs_of_the_SvL",
        "release speed monitoring starts by the EBD without T_bs",
        lambda eoa, svl, T_bs: min(eoa[0] - eoa[1], svl[0] - svl[1] + T_bs),
    ),
    (
        "release_start_by_the_EBD",
        "release speed monitoring starts by the EBD of the SvL alone",
        lambda eoa, svl, T_bs: svl[0] - svl[1],
    ),
    (
        "release_start_by_the_SBD",
        "release speed monitoring starts by the SBD of the EOA alone",
        lambda eoa, svl, T_bs: eoa[0] - eoa[1],
    ),
    (
        "release_start_by_the_later",
        "release speed monitoring starts at the later of the two places",
        lambda eoa, svl, T_bs: max(eoa[0] - eoa[1], svl[0] - svl[1]),
    ),
    (
        "release_start_without_times",
        "release speed monitoring starts on the curves, without the times before them",
        lambda eoa, svl, T_bs: min(eoa[0], svl[0]),
    ),
):
    OF_RELEASE.put(name, told, start(own), START)


def release_by(which: str) -> Callable[[Any], Any]:
    """Whether a reading is in release speed monitoring, by another front end."""

    def make(rule: Any) -> Any:
        def situation(self: Any, reading: Any, exact: bool = False) -> Any:
            there = rule(self, reading, exact)
            is_in = there.release_start is not None and reading.front_end(which) > there.release_start
            found = journey.__dict__["targets_of"](self.profile, self.authority, reading, is_in)
            return there._replace(in_release=is_in, targets=[self.limits(reading, each, exact) for each in found])

        return situation

    return make


@OF_RELEASE.add("release speed monitoring starts with the estimated front end", (journey.Supervisor, "situation"))
def release_by_the_estimated_front_end(rule: Any) -> Any:
    return release_by("est")(rule)


@OF_RELEASE.add("release speed monitoring starts with the min safe front end", (journey.Supervisor, "situation"))
def release_by_the_min_safe_front_end(rule: Any) -> Any:
    return release_by("min")(rule)


@OF_RELEASE.add("there is no release speed monitoring", START)
def no_release(rule: Any) -> Any:
    return lambda times, curves, authority, exact=False: None


LATEST_TRIP, AUTHORITY_OF = (release, "latest_trip"), (journey.Supervisor, "authority_of")


@OF_RELEASE.add("a calculated release speed has no build-up time", LATEST_TRIP)
def calculated_without_T_be(rule: Any) -> Any:
    return lambda curves, T_be, svl, v, exact=False: rule(curves, 0, svl, v, exact)


@OF_RELEASE.add("a calculated release speed is that of the SBD", LATEST_TRIP)
def calculated_by_the_SBD(rule: Any) -> Any:
    def latest_trip(curves: Any, T_be: Any, svl: int, v: int, exact: bool = False) -> Any:
        V = v * units.NOTCHES_PER_KM_H
        return curves.d_SBD(svl * units.GRAINS_PER_CM, 0, V, exact) - way(V, T_be)

    return latest_trip


def calculated_with(T_be: Callable[[Any], Any] | None = None, by: str = "trip", changed: Any = None) -> Any:
    """A calculated release speed with another build-up time or from another place, or changed."""

    def make(rule: Any) -> Any:
        def authority_of(self: Any, event: Any) -> Any:
            authority = rule(self, event)
            time = self.data.train.emergency_time if T_be is None else T_be(self)
            v = release.calculated(self.curves, time, event.svl, getattr(event, by))
            return authority._replace(release=v if changed is None else changed(v))

        return authority_of

    return make


for name, told, make in (
    ("calculated_with_T_berem", "a calculated release speed has T_berem", calculated_with(lambda it: it.times.T_berem)),
    (
        "calculated_with_T_traction_and_T_berem",
        "a calculated release speed has T_traction + T_berem",
        calculated_with(lambda it: it.times.T_traction + it.times.T_berem),
    ),
    (
        "calculated_with_T_bs_too",
        "a calculated release speed has T_bs besides the emergency build-up time",
        calculated_with(lambda it: it.data.train.emergency_time + it.times.T_bs),
    ),
    ("calculated_from_the_EOA", "a calculated release speed is that of a trip at the EOA", calculated_with(by="eoa")),
    (
        "calculated_in_steps_of_5",
        "a calculated release speed is rounded down to 5 km/h",
        calculated_with(changed=lambda v: v // 5 * 5),
    ),
    (
        "calculated_one_less",
        "a calculated release speed is 1 km/h lower",
        calculated_with(changed=lambda v: max(v - 1, 0)),
    ),
    (
        "calculated_one_more",
        "a calculated release speed is 1 km/h higher",
        calculated_with(changed=lambda v: min(v + 1, 500)),
    ),
    ("calculated_0", "no release speed is calculated", calculated_with(changed=lambda v: 0)),
):
    OF_RELEASE.put(name, told, make, AUTHORITY_OF)
