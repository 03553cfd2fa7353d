"""`trial` (FORMATS "trial"): the supervisor over fixed data and readings of its own making."""
from sdm_evidence.model.data import Band, Data, Gradient, National, StaticSpeed, Stop, Track, Train
from sdm_evidence.model.journey import Supervisor
from sdm_evidence.model.records import Reading

# fmt: off
REALISTIC = Data(
    Train(20_000, 160, None, 20, True, 30, 40, True,
          (Band(100, 120, 90, 60, 850, 950, 0, 0, None), Band(None, 100, 80, 50, 850, 950, 0, 0, None))),
    National(0, 70, False, True, False, False),
    Track(600_000, (Gradient(0, 0), Gradient(200_000, -50), Gradient(400_000, 0)), (StaticSpeed(0, 160, True),),
          (), ()),
    Stop(500_000, 505_000, 0))
# fmt: on


def number_after(x: int) -> int:
    """FORMATS "trial": the next number of the generator."""
    return (25173 * x + 13849) % 65536


def trial_lines(number: int, cycles: int) -> list[str]:
    """FORMATS "trial": the five lines."""
    supervisor, x = Supervisor(REALISTIC), number
    count = dict.fromkeys(("rows", "covered", "emergency", "service", "ebi"), 0)
    for i in range(1, cycles + 1):
        x = number_after(x)
        est = 3_000_000 + 20 * x
        row = supervisor.read(Reading(5 * i, est, est - 5_000, est + 5_000, x % 44_001, x % 101 - 50, 500)).row
        more = {
            "rows": 1,
            "covered": row.covered,
            "emergency": row.commands.eb,
            "service": row.commands.sb,
            "ebi": row.limits[0] or 0,
        }
        count = {word: (count[word] + more[word]) % 1_000_000_000 for word in count}
    return [f"{word} {n}\n" for word, n in count.items()]
