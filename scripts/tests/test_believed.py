"""The list of files to believe for a command has what its clauses reach, and nothing of another command."""
from __future__ import annotations

import unittest

from scripts.tests import copies

# A claim, some of what it must name, and what it must not: files and definitions of other commands.
CLAIMS = [
    ("run", ["IsRun", "IsSafe", "run_shape"], ["Trial.antt", "sdm_drive/", "sdm_certify/", "flat_shape", "IsReadBack"]),
    ("flat", ["flat_output", "flat_shape"], ["sdm_data/", "sdm_events/", "Trial.antt", "IsRun"]),
    ("upgrade", ["IsReadBack", "upgrade_shape"], ["sdm_events/", "IsSafe", "row_of"]),
    (
        "live",
        ["IsPromptLive", "IsRunLive", "AreLiveRowsSafe", "IsSafe"],
        ["Trial.antt", "sdm_drive/", "sdm_certify/", "flat_shape"],
    ),
    ("version", ["text_of", "asked_of", "exit_code"], ["sdm_rules/specs/Stop", "sdm_run/", "sdm_live/"]),
    (
        "supervisor",
        ["IsSafe", "row_of", "display_of", "IsReleaseSpeed", "is_within_svl"],
        ["sdm_data/", "sdm_run/", "Input.antt"],
    ),
    ("C", ["IsSafe", "row_of", "display_of"], ["sdm_run/", "sdm_events/"]),
]


class Believed(unittest.TestCase):
    def test_a_claim_has_its_own(self) -> None:
        for claim, there, elsewhere in CLAIMS:
            status, told = copies.ended(copies.TOP, "scripts/house", "show", "believed", "of", claim)
            self.assertEqual(status, 0, told)
            for name in there:
                with self.subTest(claim, there=name):
                    self.assertIn(name, told)
            for name in elsewhere:
                with self.subTest(claim, elsewhere=name):
                    self.assertNotIn(name, told)
