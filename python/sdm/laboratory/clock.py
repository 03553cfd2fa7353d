"""Times of a recording in tenths of a second: numbers, or timestamps that count from an origin."""
import re
from datetime import datetime, timedelta
from fractions import Fraction

STAMP = re.compile(
    r"(?P<day>\d{4}-\d{2}-\d{2}|\d{2}\.\d{2}\.\d{4})[T ](?P<time>\d{2}:\d{2}(?::\d{2}(?:[.,](?P<part>\d+))?)?)"
    r" ?(?P<zone>Z|[+-]\d{2}:?\d{2})?",
    re.ASCII,
)
STAMPS = "a timestamp such as 2026-03-04T10:00:00.0, 2026-03-04 10:00:00,0 or 04.03.2026 10:00"
FORMS = f"a number, or {STAMPS}"
BEGINNING = datetime(2000, 1, 1)


class Stamp:
    """A moment, in ds since an arbitrary one, and whether its zone is known."""

    def __init__(self, text: str) -> None:
        """Raises ValueError where the text is no timestamp."""
        found = STAMP.fullmatch(text)
        if found is None:
            raise ValueError(FORMS)
        day = "-".join(reversed(found["day"].split(".")))  # as 04.03.2026
        at = datetime.fromisoformat(f"{day}T{found['time'][:8]}")
        zone = found["zone"] or "Z"
        if zone != "Z":
            minutes = 60 * int(zone[1:3]) + int(zone[-2:])
            at -= timedelta(minutes=minutes if zone[0] == "+" else -minutes)
        seconds = round((at - BEGINNING).total_seconds())
        self.ds = 10 * (seconds + Fraction(int(found["part"] or 0), 10 ** len(found["part"] or "")))
        self.is_zoned = found["zone"] is not None


class Clock:
    """Turns the texts of a column of times into ds. Timestamps count from `origin`, or else from the first one."""

    def __init__(self, scale: Fraction = Fraction(1), shift: Fraction = Fraction(0), origin: str | None = None) -> None:
        """Raises ValueError where the origin is no timestamp."""
        self.scale, self.shift = scale, shift
        self.origin = None if origin is None else Stamp(origin)
        self.is_stamped: bool | None = None if origin is None else True  # None until the first time is read

    def ds(self, text: str, decimal: str = ".") -> Fraction:
        """The time of a text. Raises ValueError with what is expected in its place."""
        is_stamp = STAMP.fullmatch(text) is not None
        if self.is_stamped is None:
            self.is_stamped = is_stamp
        if not self.is_stamped:
            try:
                return Fraction(text.replace(decimal, ".")) * self.scale + self.shift
            except ValueError:
                raise ValueError("a number, as the first time is" if is_stamp else FORMS) from None
        if not is_stamp:
            raise ValueError(STAMPS)
        try:
            stamp = Stamp(text)
        except ValueError:
            raise ValueError("a day and a time that exist") from None
        self.origin = self.origin or stamp
        if stamp.is_zoned != self.origin.is_zoned:
            raise ValueError("a zone in all timestamps, with their origin, or in none")
        return stamp.ds - self.origin.ds + self.shift
