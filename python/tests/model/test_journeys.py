"""The maker of journeys: same seed, same bytes; what it writes is the document it meant; all causes come."""
import hashlib
import os
import random
import subprocess
import sys
import unittest

from sdm_evidence.model.data import read_document
from sdm_evidence.makers.journeys import a_document, make
from sdm_evidence.makers.toml_text import toml
from sdm_evidence.model.words import collect

from tests.folders import TOP


class Journeys(unittest.TestCase):
    def test_same_seed_same_bytes(self):
        made = set()
        for hashes in ("0", "77"):
            done = subprocess.run(
                [sys.executable, TOP / "tools/journeys", "lines", "0", "60"],
                capture_output=True,
                env=os.environ | {"PYTHONHASHSEED": hashes},
                check=True,
            )
            made.add(hashlib.sha256(done.stdout).hexdigest())
        self.assertEqual(len(made), 1)

    def test_odd_spellings_are_the_same_document(self):
        for seed in range(200):
            rng = random.Random(seed)
            document = a_document(rng, 1 + seed % 2)
            for style in (None, rng, rng):
                text = toml(document, style)
                self.assertEqual(read_document(text.encode()), document, text)

    def test_even_seeds_are_of_version_1_and_odd_ones_of_version_2(self):
        versions = {0: set(), 1: set()}
        for seed in range(60):
            words, name, data = make(seed)
            if words == ["run"] and name == "journey":
                versions[seed % 2].add(read_document(data.partition(b"%%")[0])["version"])
        self.assertEqual(versions, {0: {1}, 1: {2}})

    def test_upgrade_comes_with_data_of_both_versions(self):
        found = [data for words, _, data in map(make, range(1, 400, 2)) if words == ["upgrade"]]
        rows = [collect(["upgrade"], data) for data in found]
        self.assertLessEqual({0, 5}, {code for _, _, code in rows})
        accepted = [data for data, (_, _, code) in zip(found, rows) if code == 0]
        self.assertEqual({read_document(data)["version"] for data in accepted}, {1, 2})

    def test_trains_of_nine_ten_and_eleven_bands_come(self):
        ends = {}
        for words, _, data in map(make, range(1, 500, 2)):
            bands = data.count(b"\nemergency = ")
            if words == ["run"] and bands > 8:
                ends.setdefault(bands, set()).add(collect(words, data)[2])
        self.assertLessEqual({0, 6}, ends[9] | ends[10])
        self.assertEqual([0 in ends[bands] for bands in (9, 10, 11)], [True, True, False])

    def test_calculated_release_speeds_come_and_are_refused(self):
        found = {0: set(), 1: set()}
        for seed in range(400):
            words, name, data = make(seed)
            if words == ["run"] and b"endcalc" in data:
                found[seed % 2].add(collect(words, data)[1].partition(": ")[2].split(": ")[-1].strip())
        for faults in found.values():
            self.assertLessEqual({"", "bad trip place"}, faults)

    def test_states_commands_and_faults_come(self):
        seen = set()
        for seed in range(300):
            words, name, data = make(seed)
            rows, fault, status = collect(words, data)
            seen.add(status)
            seen.add(fault.split(": ")[-1].split()[0] if fault else "")
            if words == ["run"]:
                for row in rows.splitlines():
                    seen |= set(row.split(",")[1:3])
        self.assertLessEqual(
            {
                0,
                5,
                6,
                7,
                "C",
                "T",
                "R",
                "N",
                "I",
                "O",
                "W",
                "X",
                "unknown",
                "not",
                "out",
                "time",
                "supervised",
                "beyond",
                "identity",
                "restriction",
                "line",
            },
            seen,
        )
