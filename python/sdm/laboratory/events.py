"""The events of an input's records: what the model reads, sooner where a record is a reading in plain numbers."""
import re
from collections.abc import Iterator

from sdm.exact import EVENTS, Event, HIGH, LOW, MOST_RECORDS, Reading, Refused, event_of, placed_records

PLAIN = re.compile(rb"read" + 7 * rb",(-?[0-9]{1,18})" + rb"\r?\n")
_, (EARLIEST, LATEST), _, _, _, (SLOWEST, FASTEST), (LEAST, MOST), (NONE, ALL) = EVENTS[b"read"]


def events_of(data: bytes) -> Iterator[Event]:
    """The events of the records. Raises Refused at the first one whose form is refused, or that is one too many."""
    at = count = 0
    while at < len(data):
        found = PLAIN.match(data, at)
        if found and count < MOST_RECORDS:
            reading = Reading(*map(int, found.groups()))
            yield reading if is_in_range(reading) else event_of(found[0].rstrip().split(b","))
            at, count = found.end(), count + 1
            continue
        for begin, fields in placed_records(data, at):
            if begin > at and count < MOST_RECORDS and PLAIN.match(data, begin):
                at = begin
                break
            if count == MOST_RECORDS:
                raise Refused("too many events")
            yield event_of(fields)
            count += 1
        else:
            return


def is_in_range(reading: Reading) -> bool:
    """Whether the numbers of a reading are those that a record may have."""
    time, est, least, most, speed, accel, under = reading
    return (
        EARLIEST <= time <= LATEST
        and LOW <= least <= est <= most <= HIGH
        and SLOWEST <= speed <= FASTEST
        and LEAST <= accel <= MOST
        and NONE <= under <= ALL
    )
