"""`flat` (PROFILE "flat", FORMATS "flat"): one brake curve on level track."""
from collections.abc import Iterator

from sdm_evidence.model.curves import BrakeCurve
from sdm_evidence.model.decelerations import Brake
from sdm_evidence.model.outcome import Outcome
from sdm_evidence.model.records import PLACE, SPEED, TIME, read_int
from sdm_evidence.model.units import GRAINS_PER_CM, GRAINS_PER_MM, NOTCHES_PER_MM_S, printed


def numbers_of(line: bytes, before: int) -> list[int] | None:
    """FORMATS "flat": time, front, speed of a line; None where it isn't of the form due, or its time goes back."""
    fields = line.split(b",")
    numbers = [number for field in fields if (number := read_int(field)) is not None]
    if not len(fields) == len(numbers) == 3 or numbers[0] < before:
        return None
    return numbers if all(a <= n <= b for n, (a, b) in zip(numbers, (TIME, PLACE, SPEED))) else None


def flat_rows(A: int, END: int, data: bytes) -> Iterator[str]:
    """PROFILE "flat": the rows of all lines, up to the first that is refused. LF alone ends a line."""
    end, time, eb = END * GRAINS_PER_CM, 0, False
    brake = Brake("flat", 100, (), (), ((A * 2 * 10**9,),))  # A cm/s² with q = 100
    exact, stepped = BrakeCurve(brake, end, 0, exact=True), BrakeCurve(brake, end, 0)
    lines = data.split(b"\n")
    for number, line in enumerate(lines if lines[-1] else lines[:-1], 1):
        numbers = numbers_of(line, time)
        if numbers is None:
            raise Outcome(7, f"bad event {number}: line")
        time, front, V = numbers[0], numbers[1] * GRAINS_PER_MM, numbers[2] * NOTCHES_PER_MM_S
        past = front > stepped.place(V)
        eb = V > 0 and (past or eb) or front > end
        yield f"{time},{printed(exact.place(V))},{not past:d},{eb:d}\n"
