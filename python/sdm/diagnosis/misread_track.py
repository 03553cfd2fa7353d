"""Misreadings of PROFILE "The track under the train", "Decelerations", and "Speed profile and ceiling"."""

from bisect import bisect_right
from collections.abc import Callable
from fractions import Fraction
from math import inf
from typing import Any

from sdm.diagnosis.model import decelerations, journey, limits, speeds, triggers, units
from sdm.diagnosis.rules import Misreadings, always

OF_TRACK = Misreadings()
Zones = list[speeds.Zone]
Under = units.Steps[tuple[int, bool, bool]]


def changed_under(change: Callable[[Any, int, tuple[int, bool, bool]], tuple[Any, bool, bool]]) -> Callable[[Any], Any]:
    """What is under the train, changed in each cell by the data, the cell and what is there."""

    def make(rule: Any) -> Any:
        def under_the_train(data: Any) -> Under:
            steps, L = rule(data), data.train.length
            entries, areas = data.track.gradient, data.track.adhesion + data.track.no_special
            starts = [each.start for each in entries + areas] + [area.end for area in areas]
            cells = sorted({0, *steps.starts, *starts} | {cell + L for cell in starts})

            def at(cell: int) -> tuple[Any, bool, bool]:
                first = max(bisect_right(steps.starts, cell) - 1, 0)
                return change(data, cell, steps.values[first])

            return units.steps_of([cell for cell in cells if cell >= 0], at)

        return under_the_train

    return make


def gradients(data: Any) -> units.Steps[int]:
    entries = data.track.gradient
    return units.Steps([entry.start for entry in entries] or [0], [entry.grad for entry in entries] or [0])


UNDER = (decelerations, "under_the_train")


@OF_TRACK.add("the gradient of the front end's cell alone counts, not the least one under the train", UNDER)
def gradient_of_the_front_end(rule: Any) -> Any:
    return changed_under(lambda data, x, there: (gradients(data).lowest(x, x), *there[1:]))(rule)


@OF_TRACK.add("the gradient of the rear end's cell alone counts", UNDER)
def gradient_of_the_rear_end(rule: Any) -> Any:
    def rear(data: Any, x: int, there: tuple[int, bool, bool]) -> tuple[int, bool, bool]:
        return gradients(data).lowest(x - data.train.length, x - data.train.length), *there[1:]

    return changed_under(rear)(rule)


@OF_TRACK.add("the greatest gradient under the train counts, not the least one", UNDER)
def greatest_gradient(rule: Any) -> Any:
    def greatest(data: Any, x: int, there: tuple[int, bool, bool]) -> tuple[int, bool, bool]:
        steps = gradients(data)
        negative = units.Steps(steps.starts, [-grad for grad in steps.values])
        return -negative.lowest(x - data.train.length, x), *there[1:]

    return changed_under(greatest)(rule)


@OF_TRACK.add("gradients have the other sign", UNDER)
def gradient_sign(rule: Any) -> Any:
    def make(data: Any, x: int, there: tuple[int, bool, bool]) -> tuple[int, bool, bool]:
        steps = gradients(data)
        negative = units.Steps(steps.starts, [-grad for grad in steps.values])
        return negative.lowest(x - data.train.length, x), *there[1:]

    return changed_under(make)(rule)


@OF_TRACK.add("gradients are taken in per mille where they are in tenths: tenfold", UNDER)
def gradients_tenfold(rule: Any) -> Any:
    return changed_under(lambda data, x, there: (10 * there[0], *there[1:]))(rule)


@OF_TRACK.add("gradients are taken in tenths of a per mille where they are in per mille: a tenth", UNDER)
def gradients_a_tenth(rule: Any) -> Any:
    return changed_under(lambda data, x, there: (Fraction(there[0], 10), *there[1:]))(rule)


@OF_TRACK.add("uphill gradients count as level", UNDER)
def no_uphill(rule: Any) -> Any:
    return changed_under(lambda data, x, there: (min(there[0], 0), *there[1:]))(rule)


def by_areas(adhesion: str, no_special: str, with_length: tuple[bool, bool]) -> Callable[[Any], Any]:
    """Areas by other lists, or without the train's length behind their ends."""

    def change(data: Any, x: int, there: tuple[int, bool, bool]) -> tuple[int, bool, bool]:
        found = [
            decelerations.in_force(getattr(data.track, name), data.train.length if long else 0, x)
            for name, long in zip((adhesion, no_special), with_length)
        ]
        return there[0], found[0], found[1]

    return changed_under(change)


@OF_TRACK.add(
    "areas of adhesion and without the special brake end with the front end, not the rear end", UNDER, parts=2
)
def areas_end_with_the_front_end(rule: Any) -> Any:
    return by_areas("adhesion", "no_special", (False, False))(rule)


@OF_TRACK.add("areas of reduced adhesion end with the front end, not the rear end", UNDER)
def adhesion_ends_with_the_front_end(rule: Any) -> Any:
    return by_areas("adhesion", "no_special", (False, True))(rule)


@OF_TRACK.add("areas without the special brake end with the front end, not the rear end", UNDER)
def special_brake_areas_end_with_the_front_end(rule: Any) -> Any:
    return by_areas("adhesion", "no_special", (True, False))(rule)


@OF_TRACK.add("the areas of reduced adhesion are taken for those without the special brake", UNDER)
def special_brake_by_the_adhesion_areas(rule: Any) -> Any:
    return by_areas("adhesion", "adhesion", (True, True))(rule)


@OF_TRACK.add("the areas without the special brake are taken for those of reduced adhesion", UNDER)
def adhesion_by_the_special_brake_areas(rule: Any) -> Any:
    return by_areas("no_special", "no_special", (True, True))(rule)


@OF_TRACK.add("areas of reduced adhesion don't count", UNDER)
def adhesion_ignored(rule: Any) -> Any:
    return changed_under(lambda data, x, there: (there[0], False, there[2]))(rule)


@OF_TRACK.add("areas without the special brake don't count", UNDER)
def special_brake_areas_ignored(rule: Any) -> Any:
    return changed_under(lambda data, x, there: (there[0], there[1], False))(rule)


@OF_TRACK.add("adhesion is reduced everywhere", UNDER)
def adhesion_reduced_everywhere(rule: Any) -> Any:
    return changed_under(lambda data, x, there: (there[0], True, there[2]))(rule)


A_BRAKE_SAFE, A_GRADIENT = (decelerations, "A_brake_safe"), (decelerations, "A_gradient")


@OF_TRACK.add("the special brake is never used", (decelerations, "A_em"))
def special_brake_never_used(rule: Any) -> Any:
    return lambda band, unaided: rule(band, True)


@OF_TRACK.add("on reduced adhesion the special brake is used", A_BRAKE_SAFE)
def special_brake_on_reduced_adhesion(rule: Any) -> Any:
    return lambda data, band, reduced, unaided: rule(data, band, reduced, unaided and not reduced)


def brake_safe(own: Callable[[Fraction, Fraction, Fraction], Fraction]) -> Any:
    """A_brake_safe with another factor of Kdry, Kwet and M_NVAVADH."""

    def A_brake_safe(data: Any, band: Any, reduced: bool, unaided: bool) -> Any:
        Kdry, Kwet, wet = Fraction(band.kdry) / 1000, Fraction(band.kwet) / 1000, Fraction(data.national.avadh) / 20
        A = own(Kdry, Kwet, wet) * decelerations.A_em(band, unaided)
        return min(A, Fraction(data.national.adhesion_max) / 100) if reduced else A

    return A_brake_safe


for name, told, own in (
    ("Kdry_left_out", "Kdry is left out", lambda Kdry, Kwet, M: Kwet + M * (1 - Kwet)),
    ("Kwet_left_out", "Kwet is left out", lambda Kdry, Kwet, M: Kdry),
    ("Kdry_and_Kwet_left_out", "Kdry and Kwet are left out", lambda Kdry, Kwet, M: Fraction(1)),
    ("Kwet_in_full", "Kwet counts in full, whatever M_NVAVADH is", lambda Kdry, Kwet, M: Kdry * Kwet),
    (
        "M_NVAVADH_the_other_way",
        "M_NVAVADH counts the other way: Kdry · (1 − M_NVAVADH · (1 − Kwet))",
        lambda Kdry, Kwet, M: Kdry * (1 - M * (1 - Kwet)),
    ),
):
    OF_TRACK.put(name, told, always(brake_safe(own)), A_BRAKE_SAFE)


@OF_TRACK.add("on reduced adhesion A_MAXREDADH counts also where the brake gives less", A_BRAKE_SAFE)
def adhesion_max_in_place_of_the_brake(rule: Any) -> Any:
    def A_brake_safe(data: Any, band: Any, reduced: bool, unaided: bool) -> Any:
        return Fraction(data.national.adhesion_max) / 100 if reduced else rule(data, band, reduced, unaided)

    return A_brake_safe


@OF_TRACK.add("on reduced adhesion A_MAXREDADH limits A_safe, the gradient with it", (decelerations, "FORMULAS"))
def adhesion_max_after_the_gradient(rule: Any) -> Any:
    def A_safe(data: Any, band: Any, grad: int, reduced: bool, unaided: bool) -> Any:
        A = rule["safe"](data, band, grad, False, unaided)
        return min(A, Fraction(data.national.adhesion_max) / 100) if reduced else A

    return rule | {"safe": A_safe}


def mass(of: Callable[[Any, int], Any]) -> Callable[[Any], Any]:
    """A_gradient with another M."""

    def make(rule: Any) -> Any:
        return lambda data, grad: Fraction(981, 100) * grad / (10_000 + 100 * of(data, grad))

    return make


def own_mass(data: Any, up: int, down: int, grad: int) -> Any:
    given = data.train.rotating_mass
    return (up if grad >= 0 else down) if given is None else given


@OF_TRACK.add("where no rotating mass is known 2 percent count uphill and 15 downhill", A_GRADIENT)
def masses_swapped(rule: Any) -> Any:
    return mass(lambda data, grad: own_mass(data, 2, 15, grad))(rule)


@OF_TRACK.add("where no rotating mass is known 15 percent count downhill too", A_GRADIENT)
def mass_of_15_percent(rule: Any) -> Any:
    return mass(lambda data, grad: own_mass(data, 15, 15, grad))(rule)


@OF_TRACK.add("where no rotating mass is known 2 percent count uphill too", A_GRADIENT)
def mass_of_2_percent(rule: Any) -> Any:
    return mass(lambda data, grad: own_mass(data, 2, 2, grad))(rule)


@OF_TRACK.add("the rotating mass doesn't count", A_GRADIENT)
def mass_left_out(rule: Any) -> Any:
    return mass(lambda data, grad: 0)(rule)


@OF_TRACK.add("the rotating mass counts tenfold", A_GRADIENT)
def mass_tenfold(rule: Any) -> Any:
    return mass(lambda data, grad: 10 * own_mass(data, 15, 2, grad))(rule)


@OF_TRACK.add("no gradient counts in any deceleration", A_GRADIENT, parts=3)
def no_gradient(rule: Any) -> Any:
    return lambda data, grad: Fraction(0)


def without_gradient(kind: str) -> Callable[[Any], Any]:
    """A deceleration without the gradient: where the track is level it is what the brake gives."""

    def make(rule: Any) -> Any:
        return rule | {kind: lambda data, band, grad, reduced, unaided: rule[kind](data, band, 0, reduced, unaided)}

    return make


FORMULAS = (decelerations, "FORMULAS")


@OF_TRACK.add("A_safe has no gradient", FORMULAS)
def A_safe_without_gradient(rule: Any) -> Any:
    return without_gradient("safe")(rule)


@OF_TRACK.add("A_expected has no gradient", FORMULAS)
def A_expected_without_gradient(rule: Any) -> Any:
    return without_gradient("expected")(rule)


@OF_TRACK.add("A_normal has no gradient", FORMULAS)
def A_normal_without_gradient(rule: Any) -> Any:
    return without_gradient("normal")(rule)


@OF_TRACK.add("the EBD stands on A_expected in place of A_safe", FORMULAS)
def EBD_on_A_expected(rule: Any) -> Any:
    return rule | {"safe": rule["expected"]}


@OF_TRACK.add("the SBD stands on A_safe in place of A_expected", FORMULAS)
def SBD_on_A_safe(rule: Any) -> Any:
    return rule | {"expected": rule["safe"]}


@OF_TRACK.add("the SBD stands on A_normal in place of A_expected", FORMULAS)
def SBD_on_A_normal(rule: Any) -> Any:
    return rule | {"expected": rule["normal"]}


@OF_TRACK.add("the guidance curve stands on A_expected in place of A_normal", FORMULAS)
def guidance_on_A_expected(rule: Any) -> Any:
    return rule | {"normal": rule["expected"]}


def normal(own: Callable[[Any, Any], Any]) -> Callable[[Any], Any]:
    """A_normal with another term of Kn, by the band and the gradient in tenths of a per mille."""

    def make(rule: Any) -> Any:
        def A_normal(data: Any, band: Any, grad: int, reduced: bool, unaided: bool) -> Any:
            return Fraction(band.normal) / 100 + decelerations.A_gradient(data, grad) + own(band, grad)

        return rule | {"normal": A_normal}

    return make


def Kn(band: Any, is_up: bool) -> Fraction:
    return Fraction(band.kn_up if is_up else band.kn_down) / 100


@OF_TRACK.add("Kn times the gradient is added in place of taken off", FORMULAS)
def Kn_added(rule: Any) -> Any:
    return normal(lambda band, grad: Kn(band, grad >= 0) * grad / 10_000)(rule)


@OF_TRACK.add("Kn times the gradient is taken off by its size, downhill too", FORMULAS)
def Kn_by_the_size_of_the_gradient(rule: Any) -> Any:
    return normal(lambda band, grad: -Kn(band, grad >= 0) * abs(grad) / 10_000)(rule)


@OF_TRACK.add("Kn is left out", FORMULAS)
def Kn_left_out(rule: Any) -> Any:
    return normal(lambda band, grad: 0)(rule)


@OF_TRACK.add("Kn+ and Kn- are swapped", FORMULAS)
def Kn_swapped(rule: Any) -> Any:
    return normal(lambda band, grad: -Kn(band, grad < 0) * grad / 10_000)(rule)


@OF_TRACK.add("Kn counts tenfold: its gradient is in per mille", FORMULAS)
def Kn_tenfold(rule: Any) -> Any:
    return normal(lambda band, grad: -Kn(band, grad >= 0) * grad / 1_000)(rule)


def as_if(name: str, value: bool) -> Callable[[Any], Any]:
    """Zones of the static profile as if each entry were delayed, or none."""

    def make(rule: Any) -> Any:
        def static_zones(data: Any) -> Zones:
            entries = tuple(entry._replace(**{name: value}) for entry in data.track.speed)
            zones: Zones = rule(data._replace(track=data.track._replace(speed=entries)))
            return zones

        return static_zones

    return make


STATIC_ZONES, RESTRICTION_ZONE = (speeds, "static_zones"), (speeds, "restriction_zone")


@OF_TRACK.add("the static speeds end with the front end: the train's length doesn't delay them", STATIC_ZONES)
def speeds_end_at_once(rule: Any) -> Any:
    return as_if("delayed", False)(rule)


@OF_TRACK.add("the static speeds end with the rear end, also those that aren't delayed", STATIC_ZONES)
def speeds_always_delayed(rule: Any) -> Any:
    return as_if("delayed", True)(rule)


@OF_TRACK.add("restrictions end with the front end: the train's length doesn't delay them", RESTRICTION_ZONE)
def restrictions_end_at_once(rule: Any) -> Any:
    return lambda data, restriction: rule(data, restriction._replace(delayed=0))


@OF_TRACK.add("restrictions end with the rear end, also those that aren't delayed", RESTRICTION_ZONE)
def restrictions_always_delayed(rule: Any) -> Any:
    return lambda data, restriction: rule(data, restriction._replace(delayed=1))


@OF_TRACK.add("restrictions don't count", (journey, "mrsp"))
def restrictions_ignored(rule: Any) -> Any:
    return lambda data, restrictions: rule(data, ())


@OF_TRACK.add("the static speed profile doesn't count", STATIC_ZONES)
def static_speeds_ignored(rule: Any) -> Any:
    return lambda data: [speeds.Zone(data.train.max_speed, -inf, inf)]


@OF_TRACK.add("the maximum train speed doesn't count", (journey, "mrsp"))
def max_speed_ignored(rule: Any) -> Any:
    return lambda data, restrictions: rule(data._replace(train=data.train._replace(max_speed=500)), restrictions)


CEILING = (journey, "ceiling")


def ceiling_between(first: str, last: str) -> Callable[[Any], Any]:
    def make(rule: Any) -> Any:
        return lambda profile, reading: profile.lowest(reading.cell(first), reading.cell(last))

    return make


for ends, text in {
    ("est", "max"): "from the estimated to the max safe front end",
    ("min", "est"): "from the min safe to the estimated front end",
    ("est", "est"): "of the estimated front end",
    ("max", "max"): "of the max safe front end",
    ("min", "min"): "of the min safe front end",
}.items():
    OF_TRACK.put(
        f"ceiling_{ends[0]}_{ends[1]}",
        f"the ceiling is {text}, not from the min to the max safe one",
        ceiling_between(*ends),
        CEILING,
    )


@OF_TRACK.add(
    "the margins rise from 100 km/h on, not from 110",
    (limits, "dV_ebi"),
    (triggers, "dV_ebi"),
    (triggers, "dV_sbi"),
    (triggers, "dV_warning"),
)
def margins_rise_from_100(rule: Any) -> Any:
    return lambda v: rule(v + 10) if v > 100 else rule(v)


@OF_TRACK.add(
    "the margins don't rise with the speed",
    (limits, "dV_ebi"),
    (triggers, "dV_ebi"),
    (triggers, "dV_sbi"),
    (triggers, "dV_warning"),
)
def margins_don_t_rise(rule: Any) -> Any:
    return lambda v: rule(min(v, 110))
