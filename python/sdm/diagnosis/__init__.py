"""What lies behind the differences of a recording: their runs, and the misreading or the number that explains them."""
from __future__ import annotations

import os
from fractions import Fraction
from typing import TYPE_CHECKING

if TYPE_CHECKING:
    from sdm.arrays import Array
    from sdm.records import Data
    from sdm.runs import Records

    from sdm.diagnosis.diagnosing import Diagnosis

__all__ = ["diagnose"]


def diagnose(
    data: Data,
    records: Records,
    recording: str | os.PathLike[str],
    mapping: str | os.PathLike[str] | None = None,
    *,
    rows: Array | None = None,
    mm: float = 2,
    kmh: float = 0.5,
    ds: int = 0,
    jobs: int | None = None,
) -> Diagnosis:
    """Which misreading of the profile, or which number, explains what a recording of a journey has otherwise; its text
    is what tools/diagnose prints. The recording is a CSV, with its mapping as for tools/compare.

    Places may be `mm` apart, ceilings `kmh`, times of rows and lines `ds`. Where no rows are given, the journey is run.
    `jobs` is how many processes try hypotheses, one for each processor where it isn't given. Raises SdmError where a
    journey to be run is refused, and sdm.laboratory.program.Fault where there is nothing to compare."""
    from sdm.arrays import records_in, text
    from sdm.laboratory.recording import recording_of
    from sdm.laboratory.rows import rows_of
    from sdm.laboratory.walk import read
    from sdm.records import input_of
    from sdm.runs import run

    from sdm.diagnosis.diagnosing import diagnosis_of

    held = records_in(records)
    own = rows_of(text(run(data, held) if rows is None else rows))
    lines = recording_of(read(recording), None if mapping is None else read(mapping))
    allowed = {"mm": Fraction(mm), "km/h": Fraction(kmh), "ds": ds}
    return diagnosis_of(input_of(data, held), own, lines, allowed, jobs)
