"""Journeys with many falls have them: close together, on one curve, of restrictions that lie over one another."""
import os
import subprocess
import sys
import unittest
from itertools import combinations, pairwise

from sdm_evidence.model.journey import Supervisor
from sdm_evidence.makers.journeys import a_fall_journey
from sdm_evidence.model.outcome import Refused
from sdm_evidence.model.records import Reading, Restriction, Revocation, event_of
from sdm_evidence.model.records import records as fields_of
from sdm_evidence.model.speeds import dV_ebi, falls
from sdm_evidence.model.units import GRAINS_PER_CM, NOTCHES_PER_KM_H
from sdm_evidence.model.words import open_run

from tests.folders import TOP

SEEDS = range(80)


def events_of(records):
    """The events of some records with the restrictions in force after each, up to one whose spelling is refused."""
    held = {}
    try:
        for event in map(event_of, fields_of(records)):
            if isinstance(event, Restriction):
                held[event.identity] = event
            elif isinstance(event, Revocation):
                del held[event.identity]
            yield event, list(held.values())
    except Refused:
        pass


def meet_to_the_grain(supervisor: Supervisor):
    """Whether the EBD of a fall has the foot speed of a nearer one exactly where that one stands."""
    feet = [(cell * GRAINS_PER_CM, v * NOTCHES_PER_KM_H + dV_ebi(v)) for cell, v in falls(supervisor.profile)]
    return any(
        slow < fast and supervisor.curves.d_EBD(far, slow, fast, exact=True) == near
        for (near, fast), (far, slow) in pairwise(feet)
    )


class ManyFalls(unittest.TestCase):
    @classmethod
    def setUpClass(cls):
        cls.opened = [open_run(a_fall_journey(seed)[1]) for seed in SEEDS]

    def test_same_seed_same_bytes(self):
        command = [sys.executable, TOP / "tools/journeys", "falls", "5"]
        made = {
            subprocess.run(command, capture_output=True, env=os.environ | {"PYTHONHASHSEED": hashes}, check=True).stdout
            for hashes in ("0", "77")
        }
        self.assertEqual(made, {a_fall_journey(5)[1]})

    def test_falls_are_many_and_from_1_cm_apart(self):
        cells = [[cell for cell, _ in falls(supervisor.profile)] for supervisor, _ in self.opened]
        self.assertGreater(max(map(len, cells)), 100)
        self.assertGreater(sum(len(each) > 10 for each in cells), len(SEEDS) * 3 // 4)
        self.assertGreater(sum(1 in (b - a for a, b in pairwise(each)) for each in cells), len(SEEDS) // 4)

    def test_curves_meet_to_the_grain(self):
        self.assertTrue(any(meet_to_the_grain(supervisor) for supervisor, _ in self.opened))

    def test_restrictions_overlap_and_nest_and_are_revoked_between_readings(self):
        kinds, most = set(), 0
        for _, records in self.opened:
            events = list(events_of(records))
            kinds |= {(type(a), type(b)) for (a, _), (b, _) in pairwise(events)}
            most = max(most, *(len(held) for _, held in events))
            last = sorted(max((held for _, held in events), key=len), key=lambda each: each.start)
            for a, b in combinations(last, 2):
                kinds.add("nested" if b.end < a.end else "overlapping" if b.start < a.end else "apart")
        self.assertLessEqual({(Restriction, Reading), (Revocation, Reading), "nested", "overlapping"}, kinds)
        self.assertGreater(most, 20)

    def test_trains_and_readings_are_of_each_kind(self):
        data = [supervisor.data for supervisor, _ in self.opened]
        self.assertEqual({each.national.guidance for each in data}, {False, True})
        self.assertLessEqual({1, 2, 3, 8, 9, 10}, {len(each.train.band) for each in data})
        events = [event for _, records in self.opened for event, _ in events_of(records)]
        readings = [event for event in events if isinstance(event, Reading)]
        self.assertTrue(any(each.max - each.min > 1_000_000 for each in readings))
        self.assertTrue(any(each.accel > 0 and each.under > 2_084 for each in readings))
