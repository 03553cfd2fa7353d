"""What the runs of differences take from the model: what decided a place, and the words that follow from places."""

from bisect import bisect_left, bisect_right
from collections.abc import Container, Iterator, Mapping
from fractions import Fraction
from typing import NamedTuple

from sdm.laboratory.events import events_of
from sdm.laboratory.program import Fault
from sdm.laboratory.texts import short

from sdm.diagnosis.model import decelerations, journey, limits, outcome, records, speeds, triggers, units, words

FIELDS = {"ebi": "d_EBI", "sbi": "d_SBI", "warning": "d_W", "permitted": "d_P", "indication": "d_I"}
# The place that decides a word, as far as one does.
DECIDES = {"state": "indication", "status": "permitted", "tco": "warning", "sb": "sbi", "eb": "ebi"}
Words = Mapping[str, str]  # state, status, tco, sb, eb of a row


class Seen(NamedTuple):
    """A reading that is looked at, by the number of its row: what is in force, and what the reading is decided on."""

    number: int
    supervisor: journey.Supervisor
    situation: limits.Situation


def readings(source: bytes) -> list[records.Reading]:
    """The readings of an input up to the first record that is refused. Raises Fault where it has no rows."""
    return [event for event, _ in walked(source) if isinstance(event, records.Reading)]


def walked(source: bytes) -> Iterator[tuple[object, journey.Supervisor]]:
    """Each record with the supervisor behind it; readings are passed by, since no limit depends on another one."""
    try:
        supervisor, events = words.open_run(source)
        for event in events_of(events):
            if not isinstance(event, records.Reading):
                supervisor.take(event)
            yield event, supervisor
    except outcome.Outcome as fault:
        raise Fault(f"The input has no rows: {fault.line}.") from None
    except outcome.Refused:
        return


def seen(source: bytes, rows: Container[int]) -> Iterator[Seen]:
    """The readings of some rows, counted from 1."""
    number = 0
    for event, supervisor in walked(source):
        if isinstance(event, records.Reading):
            number += 1
            if number in rows:
                yield Seen(number, supervisor, supervisor.situation(event))


class Facts(NamedTuple):
    """What decided a place or a word of a row: the speed in km/h, the least and the greatest gradient in per mille and
    slope in m/s² along the curve, where adhesion is reduced and the special brake isn't used on it, and texts."""

    kmh: Fraction
    gradients: tuple[Fraction, Fraction] | None
    slopes: tuple[Fraction, Fraction] | None
    is_reduced: bool
    is_unaided: bool
    target: str
    front_end: str
    foot: str


def facts_of(each: Seen, column: str) -> Facts:
    """What decided a column."""
    situation = each.situation
    kmh = Fraction(situation.reading.V_est) / units.NOTCHES_PER_KM_H
    by = deciding(situation, DECIDES.get(column, column))
    if by is None:
        return Facts(kmh, None, None, False, False, "", "", f"ceiling {situation.M} km/h")
    is_end = by.target.kind == "Eoa"
    first, last = (int(place // units.GRAINS_PER_CM) for place in (min(by.curve, by.target.place), by.target.place))
    steps = decelerations.under_the_train(each.supervisor.data)
    at_first, at_last = (max(bisect_right(steps.starts, cell) - 1, 0) for cell in (first, last))
    under = steps.values[at_first : at_last + 1]
    grads = [Fraction(grad, 10) for grad, _, _ in under]
    margin = Fraction(speeds.dV_ebi(by.target.V_target)) / units.NOTCHES_PER_KM_H
    foot = "foot speed 0" if by.target.is_stop else f"foot speed {by.target.V_target} + {float(margin):g} km/h"
    return Facts(
        kmh,
        (min(grads), max(grads)),
        slopes_of(each, by),
        not is_end and any(reduced for _, reduced, _ in under),
        not is_end and any(unaided for _, _, unaided in under),
        short(by.target),
        "estimated" if by.target.compared == "est" else "max safe",
        foot,
    )


def deciding(situation: limits.Situation, column: str) -> limits.TargetLimits | None:
    """The target whose limit a column has, the first of several."""
    name, V = FIELDS.get(column, ""), situation.reading.V_est
    there = [
        each
        for each in situation.targets
        if each.target.V_target * units.NOTCHES_PER_KM_H <= V and name and getattr(each, name) is not None
    ]
    places: dict[units.Number, limits.TargetLimits] = {}
    for each in there:
        places.setdefault(getattr(each, name), each)
    return places[min(places)] if places else None


def target_of(each: Seen, column: str) -> object:
    """What a place of a row is of: the target that decides it, by its kind and place."""
    by = deciding(each.situation, column)
    return None if by is None else (by.target.kind, by.target.place)


def slopes_of(each: Seen, by: limits.TargetLimits) -> tuple[Fraction, Fraction]:
    """The least and the greatest slope of a target's curve from the train's speed on it to its foot, in m/s²."""
    brake = each.supervisor.curves.brakes["expected" if by.target.kind == "Eoa" else "safe"]
    V = each.situation.reading.V_est if by.V_bec is None else by.V_bec
    low, high = sorted((by.target.foot_speed, V))
    bands = range(bisect_right(brake.uppers, low), max(bisect_left(brake.uppers, high), 0) + 1)
    first, last = sorted((by.curve, by.target.place))
    stretches = range(bisect_right(brake.borders, first), bisect_left(brake.borders, last) + 1)
    found = [brake.slopes[stretch][band] for stretch in stretches for band in bands]
    found = found or [brake.slopes[stretches.start][bisect_left(brake.uppers, low)]]
    unit = 2 * 10**9 * brake.q
    return Fraction(min(found), unit), Fraction(max(found), unit)


def words_by(each: Seen, shifts: Mapping[str, Fraction], ceiling: int | None, before: Words) -> dict[str, str]:
    """The words that the tables of PROFILE give where each place is shifted by so many mm, with another ceiling where
    one is given, and with the words of the row before."""
    situation = each.situation if ceiling is None else each.situation._replace(M=ceiling)
    moved = {FIELDS[name]: by * units.GRAINS_PER_MM for name, by in shifts.items()}
    targets = [
        each_of._replace(
            **{name: getattr(each_of, name) + by for name, by in moved.items() if getattr(each_of, name) is not None}
        )
        for each_of in situation.targets
    ]
    situation = situation._replace(targets=targets)
    held = triggers.Commands(before["tco"] == "1", before["sb"] == "1", before["eb"] == "1", before["status"])
    decision = triggers.decide(each.supervisor.data, situation, triggers.triggers_of(situation), held)
    now = decision.commands
    return {"state": decision.state, "status": now.status} | {
        name: str(int(getattr(now, name))) for name in ("tco", "sb", "eb")
    }
