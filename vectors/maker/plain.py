"""The plain train of examples/, changed where a vector asks for it, and a builder of journeys that aims at exact limits."""
import copy

from sdm_evidence.model.data import data_of
from sdm_evidence.model.journey import Supervisor
from sdm_evidence.model.records import Reading, event_of
from sdm_evidence.makers.toml_text import toml
from sdm_evidence.model.units import GRAINS_PER_MM

BAND = {"emergency": 100, "service": 100, "normal": 100, "kdry": 1000, "kwet": 1000, "kn_up": 0, "kn_down": 0}
KM = 100_000  # cm


def plain(train=(), bands=None, national=(), track=(), authority=None, version=1):
    """The data part of the plain train as a table: 100 m long, 1 m/s², no times, level, 10 km, an EOA at 5 km.

    Each part is what differs; `bands` are what differs from the plain band, from the lowest on.
    """
    document = {
        "version": version,
        "train": {"length": 10_000, "max_speed": 160, "rotating_mass": 0, "traction_cutoff_time": 0,
                  "traction_cutoff_interface": False, "emergency_time": 0, "service_time": 0, "service_brake": True}
        | dict(train),
        "national": {"avadh": 20, "adhesion_max": 70, "guidance": False, "service_in_target": True,
                     "early_release": False, "inhibit_under_reading": False} | dict(national),
        "track": {"length": 10 * KM, "speed": [{"start": 0, "speed": 160}]} | dict(track),
        "authority": authority or stop(5 * KM),
    }
    document["train"]["band"] = [({"upper": band["upper"]} if "upper" in band else {}) | BAND | band
                                 for band in (bands or [{}])]
    return copy.deepcopy(document)


def stop(eoa, beyond=0, release=None):
    """An authority to an end, with the SvL so many cm beyond it."""
    return {"kind": "end", "eoa": eoa, "svl": eoa + beyond} | ({} if release is None else {"release": release})


def limit(loa, speed):
    return {"kind": "limit", "loa": loa, "speed": speed}


class Journey:
    """A journey that is built record by record. The model goes along, so that a reading can be put at a limit."""

    def __init__(self, document, home_mm=2_000_000, behind=2_000, ahead=5_000):
        self.document, self.lines, self.time = document, [], 0
        self.supervisor = Supervisor(data_of(document))
        self.home_mm, self.behind, self.ahead = home_mm, behind, ahead

    def record(self, *fields):
        """Any record that is accepted."""
        fields = [str(field) for field in fields]
        self.supervisor.take(event_of([field.encode() for field in fields]))
        self.lines.append(",".join(fields))
        return self

    def spoilt(self, line):
        """A record that is refused, or one behind it."""
        self.lines.append(line)
        return self

    def read(self, v, est=None, max=None, min=None, a=0, u=0, ds=5, behind=None, ahead=None):
        """A reading with one front end where it is asked, in mm; without one at home. Speed in mm/s."""
        behind, ahead = self.behind if behind is None else behind, self.ahead if ahead is None else ahead
        if max is not None:
            est = max - ahead
        elif min is not None:
            est = min + behind
        elif est is None:
            est = self.home_mm
        self.time += ds
        return self.record("read", self.time, est, est - behind, est + ahead, v, a, u)

    def rest(self):
        """Standstill at home, which releases all that is held."""
        return self.read(0)

    def target(self, kind, v, a=0, u=0, number=0):
        """The limits of a target of a kind, in order of their places, at a speed and at home."""
        est = self.home_mm
        probe = Reading(self.time, est, est - self.behind, est + self.ahead, v, a, u)
        return [each for each in self.supervisor.situation(probe).targets if each.target.kind == kind][number]

    def release_start(self):
        """The start of release speed monitoring, in grains."""
        return self.supervisor.situation(Reading(self.time, 0, 0, 0, 0, 0, 0)).release_start

    def at(self, kind, name, v, by=0, a=0, u=0, number=0):
        """A reading with the compared front end at a limit, or so many mm past it; a limit is rounded down to mm."""
        each = self.target(kind, v, a, u, number)
        place = getattr(each, name) // GRAINS_PER_MM + by
        return self.read(v, a=a, u=u, **{each.target.compared: place})

    def around(self, kind, v, names="d_I d_P d_W d_SBI d_EBI", **more):
        """For each limit: rest, then a millimetre before it, at it, and a millimetre past it, each after a rest."""
        for name in names.split():
            for by in (-1, 0, 1):
                self.rest().at(kind, name, v, by, **more)
        return self

    def input(self):
        return (toml(self.document) + "%%\n" + "".join(line + "\n" for line in self.lines)).encode()


def speeds_around(notches):
    """The mm/s below, at and above a speed in notches; where it is no whole mm/s, those on either side."""
    at = notches // 54
    return [at - 1, at, at + 1] if notches % 54 == 0 else [at, at + 1]
