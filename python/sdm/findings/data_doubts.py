"""Numbers of a data part that are accepted, and that hardly any train or track has: as where a unit was mixed up."""
from sdm.exact import (
    Data,
)

from sdm.findings.data_part import path_text
from sdm.findings.finding import Finding, doubt
from sdm.findings.toml_places import KeyPath, Places

SHORTEST_CM, LONGEST_M = 600, 1_500  # of a train
SHORTEST_BUILD_UP_DS = 10  # that a brake has, where it has one
FLATTEST, STEEPEST = 10, 400  # tenths of a per mille: gradients below the one and above the other are rare


def data_doubts(data: Data, places: Places | None) -> list[Finding]:
    """All numbers that look wrong by themselves."""
    told = [*train_doubts(data), *gradient_doubts(data)]
    found = []
    for path, what, expected, hint in told:
        at = places.of_value(path) if places is not None else None
        found.append(doubt(at[0] if at is not None else None, path_text(path), what, expected, hint))
    return found


DataDoubt = tuple[KeyPath, str, str, str]  # the key, what was found, what is expected, the likely slip


def train_doubts(data: Data) -> list[DataDoubt]:
    """A train of a few metres, and brakes that work at once."""
    train, found = data.train, list[DataDoubt]()
    if train.length < SHORTEST_CM:
        hint = f"as m it would be {100 * train.length:,} cm" if 100 * train.length <= 100 * LONGEST_M else ""
        expected = f"a train of {SHORTEST_CM / 100:g} m or more"
        found.append((("train", "length"), f"{train.length} cm", expected, hint or "lengths are in cm"))
    for name in ("emergency_time", "service_time"):
        time = getattr(train, name)
        if 0 < time < SHORTEST_BUILD_UP_DS:
            expected = f"{SHORTEST_BUILD_UP_DS} ds or more, the time until the brake is built up"
            hint = f"as s it would be {10 * time} ds"
            found.append((("train", name), f"{time} ds, {time / 10:g} s", expected, hint))
    return found


def gradient_doubts(data: Data) -> list[DataDoubt]:
    """Gradients in the unit of the data part's other version. Data hold tenths of a per mille, whichever it is."""
    slopes = [(i, entry.grad) for i, entry in enumerate(data.track.gradient) if entry.grad]
    if not slopes:
        return []
    steepest, (first, grad) = max(abs(grad) for _, grad in slopes), slopes[0]
    key: KeyPath = ("track", "gradient", first, "grad")
    texts = f"{len(slopes)} gradient{'s' * (len(slopes) > 1)} of at most {steepest / 10:g} ‰, the first {grad / 10:g} ‰"
    if steepest < FLATTEST:
        hint = f"version 2 has tenths of a per mille: as per mille the first would be {10 * grad}"
        return [(key, texts, "some gradient of 1 ‰ or more, where a track has any", hint)]
    if steepest > STEEPEST and all(grad % 10 == 0 for _, grad in slopes):
        hint = f"version 1 has per mille: as tenths the first would be {grad / 100:g} ‰"
        return [(key, texts, f"gradients of at most {STEEPEST / 10:g} ‰", hint)]
    return []
