"""Makes journeys over several data parts, from a seed (PROFILE "A change of data"): each part has data and records, and
the supervisor that is opened over them takes over what is kept.

What the data of the next part are: those of the part before with another authority; the same where they count up to
the end of the authority, and others past it; a shorter track; or any other data.
"""
import copy
from random import Random
from typing import NamedTuple

from sdm_evidence.makers.aimed import Maker
from sdm_evidence.model.data import Stop, Table, data_of
from sdm_evidence.makers.documents import SPEEDS, a_document, a_grad, an_open_document
from sdm_evidence.model.journey import Supervisor
from sdm_evidence.makers.journeys import record
from sdm_evidence.model.outcome import Outcome, Refused
from sdm_evidence.model.records import Event
from sdm_evidence.makers.toml_text import toml


class Part(NamedTuple):
    """A data part with its records, and the rows of these."""

    document: Table
    events: list[Event]
    rows: list[str]

    def text(self) -> str:
        """Its input, in plain records."""
        return toml(self.document) + "%%\n" + "".join(",".join(record(event)) + "\n" for event in self.events)


class Journey(NamedTuple):
    """The parts, of which the last is refused where there is a refusal."""

    parts: list[Part]
    refusal: str


def authority_of(supervisor: Supervisor) -> Table:
    """The authority in force as the data part has it."""
    authority = supervisor.authority
    if isinstance(authority, Stop):
        return {"kind": "end", "eoa": authority.eoa, "svl": authority.svl, "release": authority.release}
    return {"kind": "limit", "loa": authority.loa, "speed": authority.speed}


def with_more_past(rng: Random, document: Table, cell: int) -> Table:
    """The same data up to a cell, and steps of gradient and speed past it."""
    track = document["track"]
    past = max([cell, *(entry["start"] for kind in ("gradient", "speed") for entry in track.get(kind, []))]) + 1
    if past + 1_000 < track["length"] and len(track.get("gradient", [])) < 100 and len(track["speed"]) < 100:
        start = rng.randint(past, track["length"] - 1)
        track["speed"] = [*track["speed"], {"start": start, "speed": rng.choice(SPEEDS)}]
        if track.get("gradient"):
            track["gradient"] = [*track["gradient"], {"start": start, "grad": a_grad(rng, 30, document["version"])}]
    return document


def next_document(rng: Random, version: int, part: Part, supervisor: Supervisor) -> Table:
    """The data of the next part."""
    document = copy.deepcopy(part.document)
    document["authority"] = authority_of(supervisor)
    what = rng.random()
    if what < 0.3:
        return document
    if what < 0.6:
        authority = supervisor.authority
        return with_more_past(rng, document, authority.svl if isinstance(authority, Stop) else authority.loa)
    if what < 0.7:
        ends = [restriction.end for restriction in supervisor.restrictions.values()]
        least = max(getattr(supervisor.authority, "svl", 0), getattr(supervisor.authority, "loa", 0), 1)
        length = max(least, min(ends, default=least) + rng.choice([-1, 0]))
        lists = [entries for entries in document["track"].values() if isinstance(entries, list)]
        starts = [entry["start"] for entries in lists for entry in entries]
        document["track"]["length"] = max(length, max(starts) + 1)
        return document
    return a_document(rng, version)


def opened(document: Table) -> Supervisor | None:
    """The supervisor over data; none where they are refused."""
    try:
        return Supervisor(data_of(document))
    except (Refused, Outcome):
        return None


def a_part(rng: Random, document: Table, supervisor: Supervisor, before: Maker | None) -> tuple[Part, Maker]:
    """Records for a supervisor that has taken over, where one ran before: the train is where it was."""
    maker = Maker(rng, supervisor)
    if before is not None:
        maker.time = before.time
        if rng.random() < 0.7:
            maker.place = before.place
    maker.make(rng.randint(4, 10))
    return Part(document, maker.events, [cycle.row.text() for cycle in maker.cycles]), maker


def make(seed: int) -> Journey:
    """The journey of a seed, of two or three parts."""
    rng, version = Random(f"changes {seed}"), 1 + seed % 2
    document, supervisor = an_open_document(rng, version)
    part, maker = a_part(rng, document, supervisor, None)
    parts = [part]
    for _ in range(rng.choice([1, 1, 2])):
        following = None
        while following is None:
            document = next_document(rng, version, parts[-1], supervisor)
            following = opened(document)
        try:
            following.take_over(supervisor)
        except Refused as refused:
            return Journey([*parts, Part(document, [], [])], str(refused))
        supervisor = following
        part, maker = a_part(rng, document, supervisor, maker)
        parts.append(part)
    return Journey(parts, "")


def is_that_of_the_last(journey: Journey) -> bool:
    """Whether a supervisor that had had the last data from the beginning, with the first authority, writes the same
    rows in the same order: old and new data agree on what counts."""
    return not journey.refusal and rows_by_the_last(journey) == [row for part in journey.parts for row in part.rows]


def events_by_the_last(journey: Journey) -> list[Event]:
    """All records, with the authority of each further part as a record where it begins."""
    events: list[Event] = []
    for count, part in enumerate(journey.parts):
        if count:
            events.append(data_of(part.document).authority)
        events += part.events
    return events


def document_of_the_last(journey: Journey) -> Table:
    """The last data with the first authority."""
    return journey.parts[-1].document | {"authority": journey.parts[0].document["authority"]}


def rows_by_the_last(journey: Journey) -> list[str] | None:
    """The rows over the last data from the beginning; none where they are refused or a record is."""
    supervisor, rows = opened(document_of_the_last(journey)), []
    if supervisor is None:
        return None
    try:
        for event in events_by_the_last(journey):
            cycle = supervisor.take(event)
            if cycle is not None:
                rows.append(cycle.row.text())
    except Refused:
        return None
    return rows
