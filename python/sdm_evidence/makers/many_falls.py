"""Makes journeys with many falls, for journeys.py: steps of the speed profile from 1 cm apart, staircases, steps on one
curve, restrictions that overlap and nest, and their revocations.

Curves of such falls nearly meet or do, so which of them counts changes with the place, with the speed and with each
restriction.
"""
from random import Random

from sdm_evidence.makers.aimed import Maker
from sdm_evidence.model.data import Limit, Stop, Table, data_of
from sdm_evidence.makers.documents import a_document, a_grad, some_areas, some_starts
from sdm_evidence.model.journey import MOST_RESTRICTIONS, Supervisor
from sdm_evidence.model.limits import Target
from sdm_evidence.model.outcome import Refused
from sdm_evidence.model.records import Event, Reading, Restriction, Revocation
from sdm_evidence.model.speeds import dV_ebi, falls
from sdm_evidence.model.units import GRAINS_PER_CM, GRAINS_PER_MM, NOTCHES_PER_KM_H, NOTCHES_PER_MM_S

SpeedStep = tuple[int, int]  # where a speed begins, and the speed
RestrictedStretch = tuple[int, int, int]  # a restriction's start, end and speed

GAPS = [1, 1, 2, 5, 20, 100, 400, 1_500]  # cm between steps that lie close together
CHANGES = [-1, -1, -2, -3, -5, -10, -20, 3, 7, 15]  # km/h from one of them to the next
STEPS = [16, 24, 32, 48, 126]  # behind the first entry
LEAST_MARGIN = 2_083  # mm/s, just below dV_ebi: where V_bec is so much above V_est, each faster target is met by speed


def in_range(kmh: int, top: int = 500) -> int:
    """The nearest speed from 5 km/h to a top speed."""
    return min(max(kmh, 5), top)


def dense_steps(rng: Random, first: int, count: int, top: int) -> list[SpeedStep]:
    """Steps from a place on that lie close together, with speeds that fall at most of them."""
    steps, place, speed = [], first, top
    for _ in range(count):
        speed = in_range(speed + rng.choice(CHANGES), top)
        steps.append((place, speed))
        place += rng.choice(GAPS)
    return steps


def stairs(rng: Random, length: int, count: int, top: int) -> list[SpeedStep]:
    """Steps over the whole track, with speeds that fall at each by as much or by 1 to 6 km/h."""
    steps, speed, down = [], top, rng.choice([1, 1, 2, 3, 0])
    for number in range(1, count + 1):
        speed = in_range(speed - (down or rng.randint(1, 6)))
        steps.append((number * length // (count + 1), speed))
    return steps


def meeting_steps(rng: Random, supervisor: Supervisor, last: int, count: int, top: int) -> list[SpeedStep]:
    """Steps up to a place, each of which begins in the cell where a curve of the last one has its foot speed, or beside
    that cell."""
    is_guide, down = rng.random() < 0.4, rng.choice([9, 9, 1, 4])
    slowest = 9 if is_guide else rng.choice([6, 15])

    def foot(kmh: int) -> int:
        return kmh * NOTCHES_PER_KM_H + (0 if is_guide else dV_ebi(kmh))

    curve = supervisor.curves.d_guide if is_guide else supervisor.curves.d_EBD
    places = {last: slowest}
    for kmh in range(slowest + down, top, down)[:count]:
        met = int(curve(last * GRAINS_PER_CM, foot(slowest), foot(kmh)) // GRAINS_PER_CM)
        cell = met + rng.choice([-1, 0, 0, 0, 1])
        if not 0 < cell < min(places):
            break
        places[cell] = kmh
    return sorted(places.items())


def many_steps(rng: Random, supervisor: Supervisor) -> list[SpeedStep]:
    """Steps of a static profile with many falls: dense ones, a staircase, one with dense steps on it, or steps whose
    curves meet."""
    length, top = supervisor.data.track.length, supervisor.data.train.max_speed
    count, first = rng.choice(STEPS), rng.randint(length // 4, length * 3 // 4)
    match rng.choice(["dense", "dense", "stairs", "both", "meeting"]):
        case "dense":
            return dense_steps(rng, first, count, top)
        case "stairs":
            return stairs(rng, length, count, top)
        case "both":
            steps = stairs(rng, length, count // 2, top)
            on = min([speed for place, speed in steps if place < first] or [top])
            return steps + dense_steps(rng, first, count // 2, on)
    return meeting_steps(rng, supervisor, first, count, top)


def level(document: Table, a: int) -> None:
    """Makes the track level and all brakes one deceleration, so that curves may meet to the grain."""
    document["track"] |= {"gradient": [], "adhesion": []}
    for band in document["train"]["band"]:
        band |= {"emergency": a, "service": a, "normal": a, "kdry": 1000, "kwet": 1000, "kn_up": 0, "kn_down": 0}
        band.pop("emergency_reduced", None)


def a_bare_document(rng: Random, version: int) -> Table:
    """A data part as a table, whose static profile is one speed."""
    document = a_document(rng, version)
    train, length = document["train"], rng.choice([200_000, 600_000, 2_000_000])
    train |= {"length": rng.choice([1, 1, 10, 2_000, 20_000]), "max_speed": rng.choice([120, 200, 300, 500])}
    starts = some_starts(rng, rng.choice([0, 3, 12, 40]), length, train["length"])
    steep = rng.choice([2, 8, 8, 15])
    track = {
        "length": length,
        "speed": [{"start": 0, "speed": train["max_speed"]}],
        "gradient": [{"start": start, "grad": a_grad(rng, steep, version)} for start in starts],
        "adhesion": some_areas(rng, length, train["length"]),
    }
    end = {"kind": "end", "eoa": length - rng.choice([0, 1, 5_000]), "svl": length, "release": rng.choice([0, 0, 30])}
    document |= {"track": track, "authority": end}
    document["national"]["guidance"] = rng.random() < 0.5
    if rng.random() < 0.3:
        level(document, rng.choice([50, 50, 100]))
    weaker = rng.choice([10, 10, 6, 4])  # tenths: a weak normal brake makes guidance curves count
    for band in train["band"]:
        band["normal"] = max(band["normal"] * weaker // 10, 5)
    return document


def an_open_document_of_falls(rng: Random, version: int) -> tuple[Table, Supervisor]:
    """A data part as a table, whose static profile has many falls, with its supervisor: one that isn't refused."""
    while True:
        document = a_bare_document(rng, version)
        try:
            bare = Supervisor(data_of(document))
        except Refused:
            continue
        entries, waits = document["track"]["speed"], rng.random() < 0.5  # a rise may wait for the train's rear
        for place, speed in sorted(dict(many_steps(rng, bare)).items()):
            if 0 < place < document["track"]["length"]:
                entries.append({"start": place, "speed": speed, "delayed": waits or rng.random() < 0.1})
        return document, Supervisor(data_of(document))


def chained(rng: Random, near: int, length: int) -> list[RestrictedStretch]:
    """Zones that each begin in the one before, from 1 cm on."""
    zones, start, speed = [], near, rng.randint(20, 300)
    for _ in range(rng.randint(2, 12)):
        speed = in_range(speed + rng.choice(CHANGES))
        zones.append((start, start + rng.choice([2, 50, 3_000, 100_000]), speed))
        start += rng.choice(GAPS)
    return zones


def nested(rng: Random, near: int, length: int) -> list[RestrictedStretch]:
    """Zones each of which lies in the one before: slower the farther in, or hidden by that around it."""
    zones, start, end = [], max(near - 50_000, 0), min(near + 50_000, length)
    speed, change = rng.randint(60, 300), rng.choice([-1, -7, -20, 5])
    for _ in range(rng.randint(2, 12)):
        zones.append((start, end, speed))
        start, end = start + rng.choice([0, 1, 10, 3_000]), end - rng.choice([0, 1, 10, 3_000])
        speed = in_range(speed + change)
    return zones


def covering(rng: Random, near: int, length: int) -> list[RestrictedStretch]:
    """A zone over the whole track, or over all of it behind a place, that hides what is faster."""
    return [(rng.choice([0, 1, near]), length, rng.choice([5, 30, 80, 160]))]


def at_falls(rng: Random, near: int, length: int) -> list[RestrictedStretch]:
    """Zones of one cell or some, about a place."""
    starts = [near + rng.choice([-1, 0, 0, 1]) for _ in range(rng.randint(1, 4))]
    return [(start, start + rng.choice([1, 2, 20_000]), rng.randint(5, 200)) for start in starts]


class FallMaker(Maker):
    """Makes the events of a journey with many falls: zones over one another, readings before the falls and among
    them."""

    def falls_here(self) -> list[SpeedStep]:
        """The falls by cell with their speeds; the end of the authority where there is none."""
        return falls(self.supervisor.profile) or [(self.end_mm() // 10, 5)]

    def fall_ahead(self) -> SpeedStep:
        """A fall with its speed, more often one that has many behind it."""
        return min(self.rng.choice(self.falls_here()) for _ in range(2))

    def restrict_some(self) -> None:
        """Sets restrictions that lie over one another, as many as may be held."""
        rng, held, length = self.rng, self.supervisor.restrictions, self.supervisor.data.track.length
        cell, _ = rng.choice(self.falls_here())
        zones = rng.choice([chained, chained, nested, nested, at_falls, covering])(rng, cell, length)
        free = [identity for identity in range(100) if identity not in held]
        for identity, (start, end, speed) in zip(rng.sample(free, len(zones)), zones):
            start, end = min(max(start, 0), length), min(end, length)
            if start < end and len(held) < MOST_RESTRICTIONS:
                self.add(Restriction(identity, start, end, speed, rng.randint(0, 1)))

    def revoke_some(self) -> None:
        """Revokes one, some or all of the restrictions, the last one first or in any order."""
        held = list(self.supervisor.restrictions)[::-1]
        if self.rng.random() < 0.5:
            self.rng.shuffle(held)
        for identity in held[: self.rng.choice([1, 1, 3, MOST_RESTRICTIONS])]:
            self.add(Revocation(identity))

    def an_end(self) -> Event:
        """An authority that ends at a fall or beside it, or behind all of them."""
        rng, length = self.rng, self.supervisor.data.track.length
        cell, speed = rng.choice([*self.falls_here(), (length, 5)])
        end = min(max(cell + rng.choice([-1, 0, 0, 1, 500]), 0), length)
        if rng.random() < 0.3:
            return Limit(end, in_range(speed + rng.choice([-20, 0, 20])))
        return Stop(end, min(end + rng.choice([0, 1, 5_000]), length), rng.choice([0, 0, 15, 30]))

    def a_speed(self) -> int:
        """A speed at which a fall begins to count or is left to be braked for, or a round one, or any."""
        rng, (_, kmh) = self.rng, self.rng.choice(self.falls_here())
        notches, how = kmh * NOTCHES_PER_KM_H, rng.random()
        if how < 0.5:
            aim = rng.choice([notches, notches + dV_ebi(kmh), notches + dV_ebi(kmh) - self.under * NOTCHES_PER_MM_S])
            return aim // NOTCHES_PER_MM_S + rng.choice([-1, 0, 1, 2])
        if how < 0.8:
            return rng.choice([5, 10, 50, 80, 100, 117, 120, 130, 150, 180, 225, 300]) * 2_500 // 9
        return rng.randint(0, self.supervisor.data.train.max_speed * 300)

    def at_a_limit(self) -> Reading:
        """A max safe front end at a limit of one of the falls, to the millimetre or one to a side."""
        rng, (cell, kmh), speed = self.rng, self.rng.choice(self.falls_here()), self.a_speed()
        each = self.supervisor.limits(self.probe(speed), Target("Mrsp", cell * GRAINS_PER_CM, kmh))
        limit = getattr(each, rng.choice(["d_EBI", "d_SBI", "d_W", "d_P", "d_I"]))
        return self.reading(max_mm=limit // GRAINS_PER_MM + rng.choice([-1, 0, 0, 1, 1]), speed=speed)

    def next_reading(self) -> Reading:
        """A reading at a limit, at a fall, before the falls, or with front ends that lie far apart."""
        rng, how = self.rng, self.rng.random()
        self.accel = rng.choice([0, 0, 0, 40, 100, 300, -50])
        self.under = rng.choice([0, 0, 100, LEAST_MARGIN, LEAST_MARGIN + 1, 3_000, 10_000])
        if self.supervisor.commands.eb and how < 0.4:
            return self.reading(est_mm=10 * rng.choice(self.falls_here())[0] - rng.choice([1, 100_000]), speed=0)
        cell, _ = self.fall_ahead()
        if how < 0.35:
            return self.at_a_limit()
        if how < 0.55:
            return self.reading(max_mm=10 * cell + rng.choice([-1, 0, 1, 9]), speed=self.a_speed())
        before = self.reading(est_mm=10 * cell - rng.randint(0, 3_000_000), speed=self.a_speed())
        if how < 0.75:
            return before
        behind, ahead = (rng.choice([0, 50, 200_000, rng.randint(0, 4_000_000)]) for _ in range(2))
        return before._replace(min=max(before.est - behind, -10_000_000), max=min(before.est + ahead, 110_000_000))


def over_many_falls(rng: Random, version: int) -> tuple[Table, list[Event]]:
    """A data part and the events of a journey over it."""
    document, supervisor = an_open_document_of_falls(rng, version)
    maker = FallMaker(rng, supervisor)
    for _ in range(rng.randint(3, 7)):
        how = rng.random()
        if how < 0.35:
            for _ in range(4 if rng.random() < 0.1 else 1):
                maker.restrict_some()
        elif how < 0.6:
            maker.revoke_some()
        elif how < 0.75:
            maker.add(maker.an_end())
        for _ in range(rng.choice([1, 2, 3])):
            maker.add(maker.next_reading())
    return document, maker.events
