"""A journey or a comparison as one page of HTML: tools/README.md, "A report"."""
from __future__ import annotations

import os
from typing import TYPE_CHECKING

from sdm.laboratory.comparison import tolerances
from sdm.laboratory.program import Result
from sdm.laboratory.walk import read

from sdm.reporting.made import Recorded, Report, Source, report_of

if TYPE_CHECKING:
    from sdm.arrays import Array
    from sdm.records import Data
    from sdm.runs import Records

__all__ = ["Report", "report"]
AnyPath = str | os.PathLike[str]


def file(path: AnyPath) -> Source:
    """A file by its name. Raises Fault where it can't be read."""
    return Source(os.path.basename(path), read(path))


def report(
    data: Data,
    records: Records,
    rows: Array | None = None,
    *,
    recording: AnyPath | None = None,
    mapping: AnyPath | None = None,
    mm: float = 2,
    kmh: float = 0.5,
    ds: int = 0,
    title: str = "sdm run",
    diagnose: bool = False,
) -> Report:
    """The report of a journey; of its comparison, where a recording is given, a CSV, with its mapping.

    Places may be `mm` apart, ceilings `kmh`, times of rows and lines `ds`. Where no rows are given, the journey is run.
    With `diagnose` the page says which misreading or number explains the differences.
    Raises SdmError where a journey to be run is refused, FormError of a mapping without a recording or a tolerance
    below 0, and Fault where the rows are not those of the records, a recording can't be compared, a file can't be read
    or d3 is missing."""
    from sdm.arrays import records_in, text
    from sdm.errors import FormError
    from sdm.library import load
    from sdm.records import input_of
    from sdm.runs import run

    if mapping is not None and recording is None:
        raise FormError("a mapping is given and no recording")
    held = records_in(records)
    ran = "handed in"
    if rows is None:
        rows = run(data, held)
        library = str(load()._name)
        ran = f"written by the shared library: {Source(library, read(library)).fact()}"
    recorded = None
    if recording is not None:
        recorded = Recorded(file(recording), None if mapping is None else file(mapping), tolerances(mm, kmh, ds))
    return report_of(
        title, Source("input", input_of(data, held)), Result(text(rows), "", 0), ran, recorded, "", diagnose
    )
