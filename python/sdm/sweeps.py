"""A journey, or a closed loop, over variations of its data part: on all processors, or on several machines."""
from __future__ import annotations

import copy
import hashlib
import itertools
import json
import math
import os
import re
import tomllib
from collections.abc import Callable, Generator, Iterable, Iterator, Mapping, Sequence, Sized
from contextlib import closing
from functools import partial
from pathlib import Path
from typing import IO, Any

from sdm.arrays import Array, array_of, is_frame, readings, records_in, text
from sdm.engine import ProgressLine, outcomes
from sdm.errors import FormError, KindError
from sdm.records import Data, Reading, toml_of
from sdm.rows import Row, SdmError
from sdm.runs import Records, run

Variation = Mapping[str, Any]
Variations = Mapping[str, Sequence[Any]] | Iterable[Variation]
Drive = Callable[[dict[str, Any]], Any]  # a data part to rows, or to what `measure` takes
Measure = Callable[[Any], Mapping[str, Any]]
Swept = dict[str, Any]
Numbered = tuple[int, Variation]
ENTRY = re.compile(r"\[(\d+)\]")


def summary(rows: Array) -> Swept:
    """What a sweep tells of a journey where nothing else is asked for: in how many rows each command holds and how many
    are covered, and the time of the first emergency brake command, None where there is none."""
    counts = {name: int(rows[name].sum()) for name in ("tco", "sb", "eb", "covered")}
    braked = rows["time_ds"][rows["eb"]]
    return {"rows": len(rows), **counts, "first_eb_ds": int(braked[0]) if len(braked) else None}


def varied(table: dict[str, Any], variation: Variation) -> dict[str, Any]:
    """A data part with other values, each under its path: `train.band[1].emergency`, where lists count from 1 as in the
    program's lines; `train.band.0.emergency` is the same. FormError where a path leads nowhere; its last key may be
    new."""
    made = copy.deepcopy(table)
    for path, value in variation.items():
        *way, last = ENTRY.sub(lambda entry: f".{int(entry[1]) - 1}", path).split(".")
        at: Any = made
        try:
            for step in way:
                at = at[place(step) if isinstance(at, list) else step]
            at[place(last) if isinstance(at, list) else last] = value
        except (LookupError, TypeError, ValueError):
            raise FormError(f"the data part has no {path}") from None
    return made


def place(step: str) -> int:
    """The place of an entry of a list, from 0."""
    if not step.isdecimal():
        raise ValueError(step)
    return int(step)


def variations_of(variations: Variations) -> tuple[Iterable[Variation], int | None]:
    """Each variation, all combinations where values are given by their paths, and how many they are, where that is
    known."""
    if isinstance(variations, Mapping):
        values = [list(each) for each in variations.values()]
        each = (dict(zip(variations, those)) for those in itertools.product(*values))
        return each, math.prod(map(len, values))
    return variations, len(variations) if isinstance(variations, Sized) else None


def outcome(table: dict[str, Any], drive: Drive, measure: Measure, job: Numbered) -> Swept:
    """A variation with what is measured. Where its data or a record are refused, or anything else goes wrong, `fault`
    says why."""
    variation = job[1]
    try:
        found = drive(varied(table, variation))
        if isinstance(found, list) and found and isinstance(found[0], Row):
            found = array_of(found, Row)
        return {**variation, **(found if isinstance(found, Mapping) else measure(found)), "fault": ""}
    except (SdmError, FormError, KindError) as why:
        return {**variation, "fault": str(why)}
    except Exception as why:
        return {**variation, "fault": f"{type(why).__name__}: {why}"}


def driven(records: Records, data: dict[str, Any]) -> Array:
    """The rows of records over a data part."""
    return run(data, records)


def drive_of(records: Records | Drive) -> Drive:
    """What makes rows of a data part: a function, or a journey of records."""
    if callable(records):
        return records
    if is_frame(records):
        records = readings(records)
    held = records_in(records) if isinstance(records, str | bytes) or not hasattr(records, "dtype") else records
    is_plain = isinstance(held, list) and all(type(record) is Reading for record in held)
    return partial(driven, array_of(held, Reading) if is_plain else held)


class Kept:
    """A file of the results of a sweep, a line of JSON for each, so that one that was ended goes on. Its first line
    says of which data, journey and measure it is."""

    def __init__(self, path: Path, *parts: bytes) -> None:
        """Raises FormError where the file is of other parts."""
        head = json.dumps({"sweep": [hashlib.sha256(part).hexdigest() for part in parts]})
        data = path.read_bytes() if path.exists() else b""
        whole = data.rfind(b"\n") + 1  # a line that was cut is none
        first, *lines = data[:whole].decode(errors="replace").splitlines() or [head]
        if first != head or not whole and not head.encode().startswith(data):
            raise FormError(f"{path} is kept of another sweep: its data, its journey or its measure is another one")
        self.results: dict[str, Swept] = {}
        for line in lines:
            variation, result = json.loads(line)
            self.results[json.dumps(variation)] = {**variation, **result}
        if data:
            os.truncate(path, whole)
        self.file: IO[str] = path.open("a")
        if not whole:
            self.write(head)

    def write(self, line: str) -> None:
        """Writes a line, so that it is there whatever ends this process."""
        self.file.write(line + "\n")
        self.file.flush()

    def add(self, variation: Variation, result: Swept) -> None:
        """Keeps a result."""
        rest = {name: value for name, value in result.items() if name not in variation}
        self.write(json.dumps([variation, rest], default=plain))

    def of(self, variation: Variation) -> Swept | None:
        """The result of a variation, where it is there."""
        return self.results.get(json.dumps(variation, default=plain))


def plain(value: Any) -> Any:
    """A value of NumPy as JSON has it. KindError of another one."""
    if hasattr(value, "item"):
        return value.item()
    raise KindError(f"a file of results has numbers, texts and flags alone, and no {type(value).__name__}")


def name_of(function: Any) -> str:
    """What a function is called."""
    return f"{getattr(function, '__module__', '')}.{getattr(function, '__qualname__', repr(function))}"


def journey_text(drive: Drive) -> str:
    """What tells one journey from another: its records, or the name of its function."""
    if not isinstance(drive, partial) or drive.func is not driven:
        return name_of(drive)
    (records,) = drive.args
    return text(records_in(records))


def numbered_results(
    data: Data,
    records: Records | Drive,
    variations: Variations,
    measure: Measure,
    processes: int | None,
    executor: Any,
    keep: str | os.PathLike[str] | None,
    progress: bool,
) -> Generator[tuple[int, Swept], None, None]:
    """The results of a sweep as they come, each with the number of its variation."""
    table = tomllib.loads(data if isinstance(data, str) else data.decode()) if isinstance(data, str | bytes) else data
    table, drive = dict(table), drive_of(records)
    each, count = variations_of(variations)
    kept = None
    if keep is not None:
        kept = Kept(Path(keep), toml_of(table), journey_text(drive).encode(), name_of(measure).encode())
    there: list[tuple[int, Swept]] = []  # of those that are passed over, since they are kept

    def left() -> Iterator[Numbered]:
        for number, variation in enumerate(each):
            result = kept.of(variation) if kept is not None else None
            if result is None:
                yield number, variation
            else:
                there.append((number, result))

    told, do = ProgressLine("variations", count, progress), partial(outcome, table, drive, measure)
    try:
        with closing(outcomes(do, left(), **crew(processes, executor, count))) as made:
            for (number, variation), result, why in made:
                result = {**variation, "fault": f"{type(why).__name__}: {why}"} if why is not None else result
                if kept is not None and why is None:
                    kept.add(variation, result)
                told.count()
                yield number, result
                yield from passed(there, told)
        yield from passed(there, told)
    finally:
        told.end()
        if kept is not None:
            kept.file.close()


def passed(there: list[tuple[int, Swept]], told: ProgressLine) -> Iterator[tuple[int, Swept]]:
    """The results that were there, which are told and forgotten."""
    while there:
        told.count(is_kept=True)
        yield there.pop()


def crew(processes: int | None, executor: Any, count: int | None) -> dict[str, Any]:
    """Who does it: one variation isn't worth a process."""
    return {"executor": executor, "processes": 1 if executor is None and count in (0, 1) else processes}


def sweep(
    data: Data,
    records: Records | Drive,
    variations: Variations,
    measure: Measure = summary,
    processes: int | None = None,
    *,
    executor: Any = None,
    keep: str | os.PathLike[str] | None = None,
    progress: bool = True,
) -> list[Swept]:
    """Runs a journey for each variation of its data part: a dict for each, of which pandas.DataFrame makes a table.

    `records` are those of the journey, or a function that takes a data part, as a table, and answers rows or anything
    that `measure` takes, as a closed loop does. `variations` are values by their paths, all combinations of which are
    run, or an iterable of single variations. `measure` makes of the rows what is kept.

    It runs in so many `processes`, as many as there are processors where it isn't said, or on an `executor` of
    concurrent.futures. With `keep`, a file, a sweep that was ended goes on where it was. FormError where that is of
    another sweep."""
    with closing(numbered_results(data, records, variations, measure, processes, executor, keep, progress)) as results:
        return [result for _, result in sorted(results, key=lambda pair: pair[0])]


def sweep_as_completed(
    data: Data,
    records: Records | Drive,
    variations: Variations,
    measure: Measure = summary,
    processes: int | None = None,
    *,
    executor: Any = None,
    keep: str | os.PathLike[str] | None = None,
    progress: bool = False,
) -> Generator[Swept, None, None]:
    """The results of `sweep` as they come; variations are taken as they are needed."""
    with closing(numbered_results(data, records, variations, measure, processes, executor, keep, progress)) as results:
        yield from (result for _, result in results)
