"""From a recording to a journey: docs/LABORATORY.md, "From a recording to a comparison"."""
import os
from pathlib import Path

from sdm.importing.faults import ImportFault
from sdm.importing.journey import Journey, journey_of

__all__ = ["ImportFault", "Journey", "import_recording"]


def import_recording(recording: str | os.PathLike[str], mapping: str | os.PathLike[str]) -> Journey:
    """The journey of a recording, a CSV, by a mapping, a TOML file.

    Raises ImportFault, a ValueError, with all that is wrong in the recording, the mapping and the files that it names.
    """
    return journey_of(Path(recording), Path(mapping))
