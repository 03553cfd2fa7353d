"""Kinds of faults to plant in recordings, and what a diagnosis must name for each.

A misreading is a change of the model's text, as vectors/maker/misreadings.py has them, and is looked for by the name of
a misreading of sdm.diagnosis; a number is another one in the input of the model that writes the recording. HELD_OUT are
the kinds that the counts are made with: a shuffle chose them, before any diagnosis was run.
"""
import random
from dataclasses import dataclass, field


@dataclass(frozen=True)
class Kind:
    """A fault: its name, the changes of the model's text or of the data part, what is to be named, and the flags of
    journeys in which it can show."""

    name: str
    texts: tuple = ()
    number: tuple = ()  # the path of a number of the data part, with what is made of it
    due: tuple = ()  # names of misreadings, or paths of numbers, each of which is right
    given: dict = field(default_factory=dict)


# An area that ends otherwise has the ends of its slopes elsewhere, which the model works out at borders alone.
BORDERS = ("decelerations", "{0, *starts} | {cell + L", "{0, *starts, *ends} | {cell + L")


def misread(name, module, text, other, due, **given):
    more = (BORDERS,) if module == "decelerations" and "in_force" in text or "area.end" in text else ()
    return Kind(name, ((module, text, other), *more), (), tuple(due if isinstance(due, tuple) else (due,)), given)


def another(path, change, **given):
    """Another number: `change` makes it of the given one, by a random generator."""
    return Kind(".".join(map(str, path)), (), (path, change), (path,), given)


def between(low, high):
    """A number that is between two parts of the given one, and another one."""
    return lambda rng, value: round(value * (low + (high - low) * rng.random()))


SB = {"service_brake": True, "service_in_target": True}
GUIDED = {"guidance": True}
UNDER_THE_TRAIN = "return gradient.lowest(x - L, x), in_force"
MISREAD = [
    misread("speeds at once", "speeds", "data.train.length if entry.delayed else 0", "0", "speeds_end_at_once"),
    misread(
        "speeds delayed",
        "speeds",
        "data.train.length if entry.delayed else 0",
        "data.train.length",
        "speeds_always_delayed",
    ),
    misread(
        "restrictions at once",
        "speeds",
        "data.train.length if restriction.delayed else 0",
        "0",
        "restrictions_end_at_once",
    ),
    misread(
        "ceiling from est",
        "speeds",
        'profile.lowest(reading.cell("min")',
        'profile.lowest(reading.cell("est")',
        "ceiling_est_max",
    ),
    misread("ceiling to est", "speeds", 'reading.cell("max"))', 'reading.cell("est"))', "ceiling_min_est"),
    misread(
        "front cell",
        "decelerations",
        UNDER_THE_TRAIN,
        "return gradient.lowest(x, x), in_force",
        "gradient_of_the_front_end",
    ),
    misread(
        "greatest gradient",
        "decelerations",
        UNDER_THE_TRAIN,
        "return -Steps(gradient.starts, [-grad for grad in gradient.values]).lowest(x - L, x), in_force",
        "greatest_gradient",
    ),
    misread("areas", "decelerations", "x < area.end + L for", "x < area.end for", "areas_end_with_the_front_end"),
    misread(
        "special areas",
        "decelerations",
        "in_force(no_special, L, x)",
        "in_force(no_special, 0, x)",
        "special_brake_areas_end_with_the_front_end",
    ),
    misread(
        "masses",
        "decelerations",
        "M = 15 if grad >= 0 else 2",
        "M = 2 if grad >= 0 else 15",
        "masses_swapped",
        rotating_mass=False,
    ),
    misread(
        "Kn added",
        "decelerations",
        "- Kn * Fraction(grad, 10_000)",
        "+ Kn * Fraction(grad, 10_000)",
        "Kn_added",
        **GUIDED,
    ),
    misread(
        "Kn by size",
        "decelerations",
        "- Kn * Fraction(grad, 10_000)",
        "- Kn * Fraction(abs(grad), 10_000)",
        "Kn_by_the_size_of_the_gradient",
        **GUIDED,
    ),
    misread("Kn tenfold", "decelerations", "Fraction(grad, 10_000)", "Fraction(grad, 1000)", "Kn_tenfold", **GUIDED),
    misread(
        "special never",
        "decelerations",
        "if unaided and band.emergency_reduced is not None else",
        "if band.emergency_reduced is not None else",
        "special_brake_never_used",
    ),
    misread(
        "special by adhesion",
        "decelerations",
        "in_force(no_special, L, x)",
        "in_force(adhesion, L, x)",
        "special_brake_by_the_adhesion_areas",
    ),
    misread(
        "adhesion by special",
        "decelerations",
        "in_force(adhesion, L, x)",
        "in_force(no_special, L, x)",
        "adhesion_by_the_special_brake_areas",
    ),
    misread("mass tenfold", "decelerations", "(10_000 + 100 * M)", "(10_000 + 1000 * M)", "mass_tenfold"),
    misread(
        "avadh",
        "decelerations",
        "(Kwet + M_NVAVADH * (1 - Kwet))",
        "(1 - M_NVAVADH * (1 - Kwet))",
        "M_NVAVADH_the_other_way",
    ),
    misread(
        "no gradient",
        "decelerations",
        "A_brake_safe(data, band, reduced, unaided) + A_gradient(data, grad)",
        "A_brake_safe(data, band, reduced, unaided)",
        "A_safe_without_gradient",
    ),
    misread("no Kdry", "decelerations", "A = Kdry * (Kwet", "A = (Kwet", "Kdry_left_out"),
    misread(
        "gradient sign",
        "decelerations",
        "return Fraction(981, 100) * grad",
        "return Fraction(981, 100) * -grad",
        "gradient_sign",
    ),
    misread(
        "no adhesion",
        "decelerations",
        "return min(A, Fraction(data.national.adhesion_max, 100)) if reduced else A",
        "return A",
        "adhesion_ignored",
    ),
    misread(
        "T_bs not in use",
        "limits",
        "T_bs = train.service_time if in_use else 0",
        "T_bs = train.service_time",
        "T_bs_though_not_in_use",
        service_brake=False,
    ),
    misread(
        "T_warning alone",
        "limits",
        "max(T_traction - (T_warning + T_bs), 0)",
        "T_traction - min(T_traction, T_warning)",
        "T_traction_less_T_warning",
        traction_cutoff_interface=True,
        **SB,
    ),
    misread(
        "T_berem whole", "limits", "max(train.emergency_time - T_traction, 0)", "train.emergency_time", "T_berem_whole"
    ),
    misread(
        "A_est1 abs", "limits", "A_est1 = max(reading.accel, 0)", "A_est1 = abs(reading.accel)", "A_est1_of_braking_too"
    ),
    misread("whole V_delta1", "limits", "V_delta1 // 2, V_target)", "V_delta1, V_target)", "D_bec_with_whole_V_delta1"),
    misread(
        "D_bec by V_bec",
        "limits",
        "distance_at(V_after_traction + V_delta2 // 2",
        "distance_at(V_bec",
        "D_bec_with_V_bec",
    ),
    misread(
        "SBI of EBD",
        "limits",
        "d_SBI = d_EBI - distance_at(V_est, times.T_bs)",
        "d_SBI = d_EBI",
        "SBI_of_the_EBD_without_T_bs",
        **SB,
    ),
    misread(
        "SBI of SBD",
        "limits",
        "d_SBI = curve - distance_at(V_est, times.T_bs)",
        "d_SBI = curve",
        "SBI_of_the_EOA_without_T_bs",
        **SB,
    ),
    misread("guidance for SvL", "limits", 'target.kind != "Svl"', "True", "guidance_for_all", **GUIDED),
    misread(
        "guidance foot",
        "limits",
        "d_guide(f, target.V_target * NOTCHES_PER_KM_H, V_est",
        "d_guide(f, w, V_est",
        "guidance_foot_with_margin",
        **GUIDED,
    ),
    misread("P by guidance", "limits", "d_P = min(d_P, guide)", "d_P = guide", "P_by_guidance_alone", **GUIDED),
    misread(
        "I from SBI",
        "limits",
        "d_P - distance_at(V_est, times.T_indication)",
        "d_SBI - distance_at(V_est, T_driver + times.T_indication)",
        "I_from_the_SBI",
        **GUIDED,
    ),
    misread(
        "EOA by max",
        "limits",
        '"est" if self.kind == "Eoa"',
        '"max" if self.kind == "Eoa"',
        "EOA_by_the_max_safe_front_end",
    ),
    misread(
        "SvL by est", "limits", '"est" if self.kind == "Eoa"', '"est" if self.is_stop', "SvL_by_the_estimated_front_end"
    ),
    misread("ends in R", "limits", "elif not in_release:", "else:", "ends_stay_targets_in_release"),
    misread(
        "foot", "limits", "return self.speed_with(dV_ebi)", "return self.speed_with(lambda v: 0)", "foot_without_margin"
    ),
    misread(
        "start SBD",
        "release",
        "return min(d_SBD - distance_at(V_rel, times.T_bs)",
        "return min(d_SBD",
        "release_start_without_T_bs_of_the_EOA",
        **SB,
    ),
    misread(
        "start EBD",
        "release",
        "return min(d_SBD - distance_at(V_rel, times.T_bs), ",
        "return (",
        "release_start_by_the_EBD",
        **SB,
    ),
    misread(
        "R by est",
        "journey",
        'start is not None and reading.front_end("max") > start',
        'start is not None and reading.front_end("est") > start',
        "release_by_the_estimated_front_end",
    ),
    misread(
        "trip by SBD",
        "release",
        "return curves.d_EBD(svl * GRAINS_PER_CM, 0, V",
        "return curves.d_SBD(svl * GRAINS_PER_CM, 0, V",
        "calculated_by_the_SBD",
    ),
    misread(
        "trip T_be",
        "release",
        "return curves.d_EBD(svl * GRAINS_PER_CM, 0, V, exact) - distance_at(V, T_be)",
        "return curves.d_EBD(svl * GRAINS_PER_CM, 0, V, exact)",
        "calculated_without_T_be",
    ),
    misread(
        "end by est",
        "triggers",
        'reading.front_end("min") > authority.eoa',
        'reading.front_end("est") > authority.eoa',
        "end_passed_by_the_estimated_front_end",
    ),
    misread(
        "no emer for serv",
        "triggers",
        "if serv and not situation.times.in_use:",
        "if 0:",
        "no_emergency_for_the_service_brake",
        service_brake=False,
    ),
    misread(
        "early release",
        "triggers",
        "data.national.early_release and not over",
        "data.national.early_release and not warn",
        "early_release_below_the_warning",
        early_release=True,
    ),
    misread(
        "not held",
        "triggers",
        'slow = "" if over else "the permitted speed"',
        'slow = "the permitted speed"',
        "tco_and_sb_not_held",
    ),
    misread("W not held", "triggers", 'before.status in "WX"', "0", "warning_not_held"),
    misread("no I in R", "triggers", '("I", state != "C")', '("I", state == "T")', "no_indication_in_release"),
    misread(
        "no R",
        "triggers",
        '    if situation.in_release:\n        return "R"',
        '    if 0:\n        return "R"',
        "no_state_R",
    ),
    misread(
        "target margins",
        "triggers",
        "and V > each.target.speed_with(margin):",
        "and V > each.target.speed_with(no_margin):",
        "targets_without_margins",
    ),
    misread(
        "faster columns",
        "rows",
        "slower = [each for each in situation.targets if each.target.V_target * NOTCHES_PER_KM_H <= V]",
        "slower = situation.targets",
        "columns_of_faster_targets",
    ),
    misread(
        "late sb",
        "triggers",
        "sb, why_sb = command(serv and in_use, before.sb and in_use, slow)",
        "sb, why_sb = command("
        'serv and in_use, before.sb and in_use, "" if over or state_of(situation) != "C" else "slow")',
        "sb_held_until_C",
        **SB,
    ),
]
NUMBERS = [
    another(("train", "length"), between(0.5, 0.8)),
    another(("train", "emergency_time"), between(0.6, 0.9)),
    another(("train", "service_time"), lambda rng, value: value + rng.choice([-10, 15]), **SB),
    another(("train", "traction_cutoff_time"), between(1.3, 1.8), traction_cutoff_interface=False),
    another(("train", "rotating_mass"), lambda rng, value: value + 9, rotating_mass=True),
    another(("train", "band", 0, "kdry"), between(0.8, 0.95)),
    another(("train", "band", 1, "emergency"), between(0.85, 0.95)),
    another(("train", "band", 2, "emergency"), between(1.05, 1.2)),
    another(("train", "band", 1, "kwet"), between(0.8, 0.95)),
    another(("train", "band", 0, "service"), between(0.8, 0.92), **SB),
    another(("train", "band", 1, "normal"), between(0.75, 0.9), **GUIDED),
    another(("train", "band", 1, "kn_down"), between(1.5, 2.5), **GUIDED),
    another(("train", "band", 1, "emergency_reduced"), between(0.8, 0.92)),
    another(("national", "avadh"), lambda rng, value: (value + 8) % 19),
    another(("national", "adhesion_max"), between(0.75, 0.9)),
    another(("national", "inhibit_under_reading"), lambda rng, value: not value),
    another(("national", "guidance"), lambda rng, value: not value),
    another(("national", "early_release"), lambda rng, value: not value),
    another(("train", "traction_cutoff_interface"), lambda rng, value: not value),
    another(("track", "gradient", 2, "grad"), lambda rng, value: value + rng.choice([-40, 55])),
    another(("track", "gradient", 1, "start"), lambda rng, value: value + 20_000),
    another(("track", "speed", 1, "speed"), lambda rng, value: value - 10),
    another(("track", "speed", 2, "start"), lambda rng, value: value + 15_000),
    another(("track", "adhesion", 0, "end"), lambda rng, value: value + 30_000),
    another(("track", "no_special", 0, "start"), lambda rng, value: value - 25_000),
    another(("authority", "svl"), lambda rng, value: value + rng.randrange(2_000, 8_000)),
    another(("authority", "eoa"), lambda rng, value: value - rng.randrange(2_000, 8_000)),
    another(("train", "max_speed"), lambda rng, value: 90),
]
KINDS = MISREAD + NUMBERS
_numbers = random.Random(81)
HELD_OUT = _numbers.sample(MISREAD, 18) + _numbers.sample(NUMBERS, 12)
# A guidance curve of the SvL decides nothing where one of the EOA lies before it; another kind is in its place.
HELD_OUT[[kind.name for kind in HELD_OUT].index("guidance for SvL")] = next(
    kind for kind in MISREAD if kind.name == "faster columns"
)
OTHERS = [kind for kind in KINDS if kind not in HELD_OUT]
