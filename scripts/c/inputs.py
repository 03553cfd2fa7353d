"""Writes the inputs over which scripts/house check c measures the static library into a folder: those of `run` in
bench/, and

- `greatest-areas`: the data of `greatest-ten` in version 2, with as many areas without the special brake as there may
  be, and the rotating mass, which those leave out;
- `greatest-endcalc`: the authorities of `greatest-end` with calculated release speeds in the place of given ones;
- `nested` and `long-key`: data that nest as deep as TOML may, and a key of as many parts, which are refused.
"""
from __future__ import annotations

import re
import sys
from pathlib import Path

from inputs import AREAS, MAKERS, TRACK_CM
from sdm_evidence.makers.journeys import specials

TOP = Path(__file__).resolve().parents[2]
SEED = 1


def with_areas(text: str) -> str:
    """An input of version 1 as one of version 2 with all that it may have besides."""
    data, line, records = text.partition("%%\n")
    data = data.replace("version = 1\n", "version = 2\n").replace("[train]\n", "[train]\nrotating_mass = 2\n")
    data = re.sub(r"^grad = (-?\d+)$", lambda found: f"grad = {10 * int(found[1])}", data, flags=re.M)
    data = re.sub(r"^(emergency) = (\d+)$", r"\1 = \2\n\1_reduced = \2", data, flags=re.M)
    starts = range(TRACK_CM // AREAS // 3, TRACK_CM, TRACK_CM // AREAS)
    areas = "".join(f"[[track.no_special]]\nstart = {start}\nend = {start + 5000}\n" for start in starts)
    return data + areas + line + records


def with_calculated_speeds(text: str) -> str:
    """An input whose authorities to an end have a trip place, which is the EOA, in the place of a release speed."""
    return re.sub(r"^end,(\d+),(\d+),\d+$", r"endcalc,\1,\2,\1", text, flags=re.M)


def inputs() -> dict[str, bytes]:
    """All inputs by their names."""
    made = {name: make(SEED) for name, make in MAKERS.items()}
    found = {name: each.whole() for name, each in made.items() if each.words == ["run"]}
    found["greatest-areas"] = with_areas(found["greatest-ten"].decode()).encode()
    found["greatest-endcalc"] = with_calculated_speeds(found["greatest-end"].decode()).encode()
    refused = dict(specials())
    found |= {"nested": refused["nested 80"], "long-key": refused["key of 80 parts"]}
    return found


if __name__ == "__main__":
    for name, data in inputs().items():
        (Path(sys.argv[1]) / f"{name}.input").write_bytes(data)
