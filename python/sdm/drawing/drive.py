"""A run of `drive` as a picture shows it: the readings that the model takes of its train, as a journey of `run`, and
the train itself."""

from sdm.laboratory.program import Fault
from sdm.exact import (
    Cycle,
    Drive,
    GRAINS_PER_MM,
    NOTCHES_PER_KM_H,
    Outcome,
    STEP_TIME,
    TrueTrain,
    data_of,
    drive_lines,
    opened,
    read_document,
)

from sdm.drawing.journey import run_journey
from sdm.drawing.values import DrawnJourney, Span, Window

GRAINS_PER_M = 1000 * GRAINS_PER_MM


def drive_journey(source: bytes, text: str, number: int, cycles: int, window: Window) -> DrawnJourney:
    """The journey of an input of `drive` for its words, and its five lines. Of the limits it has those that this train
    obeys."""
    try:
        data = data_of(read_document(source))
        drive = opened(Drive, data, number)
    except Outcome as outcome:
        raise Fault(f"The input has no readings: {outcome.line}.") from None
    taken, trains = [], [(STEP_TIME, drive.train)]
    for _ in range(cycles):
        taken.append(drive.step().cycle)
        trains.append((drive.time + STEP_TIME, drive.train))
    journey = run_journey(source + b"\n%%\n" + records_of(taken), "".join(cycle.row.text() for cycle in taken), window)
    journey.true = [point_of(train) for time, train in trains if window.has(time / 10)]
    journey.curves = {"EBD": journey.curves["EBD"]}
    for reading in journey.readings:
        reading.limits = {"ebi": reading.limits["ebi"]}
    if text != "".join(drive_lines(data, number, cycles)):
        journey.note = "lines of drive that the model has otherwise"
    return journey


def records_of(cycles: list[Cycle]) -> bytes:
    """The records of the readings of these cycles."""
    lines = ("read," + ",".join(map(str, cycle.situation.reading)) for cycle in cycles)
    return "".join(line + "\n" for line in lines).encode()


def point_of(train: TrueTrain) -> Span:
    """Where the true train is, in m, and its true speed in km/h."""
    return train.place / GRAINS_PER_M, train.speed / NOTCHES_PER_KM_H
