"""Causes: those of examples, by hand, and what they say of the commands of each row."""
import unittest

from sdm.laboratory.cases import cases_under
from sdm_evidence.model.words import collect

from tests.folders import EXAMPLES

JOURNEYS = [case for case in cases_under(EXAMPLES) if case.words == ["run"]]
COMMANDS = range(5, 8)  # the fields of tco, sb and eb


def explained(name):
    """The lines of an example, by their times."""
    lines, err, code = collect(["why"], (EXAMPLES / name / "input").read_bytes())
    assert (err, code) == ("", 0), err
    return {line.split(",")[0]: line.split(",")[1:] for line in lines.splitlines()}


class Causes(unittest.TestCase):
    def test_an_approach(self):
        lines = explained("approach")
        self.assertEqual(lines["0"][:3], ["target E 1000000 0 720000", "target E 1000000 0 760000", "-"])
        self.assertEqual(lines["5"][3:], ["target S 1000000 0 800000", "set", "set", "set"])
        self.assertEqual(lines["10"], ["-"] * 4 + ["off", "off", "held until standstill"])

    def test_what_else_is_an_emergency(self):
        release = explained("release-speed")
        self.assertEqual(release["341"][:4], ["release speed", "-", "-", "release speed"])
        self.assertEqual(release["471"][3:], ["end of authority", "set", "off", "set"])
        self.assertEqual(explained("no-service-brake")["150"][3], "no service brake")
        self.assertEqual(explained("over-the-ceiling")["200"][:4], ["ceiling"] * 4)
        self.assertEqual(explained("early-release")["160"][6], "held until standstill or permitted speed")


class OfRows(unittest.TestCase):
    def test_a_command_is_off_exactly_where_the_row_has_none(self):
        for case in JOURNEYS:
            rows, *ended = collect(["run"], case.data)
            lines, *same = collect(["why"], case.data)
            self.assertEqual(same, ended, case.name)
            self.assertEqual(lines.count("\n"), rows.count("\n"), case.name)
            for row, line in zip(rows.splitlines(), lines.splitlines()):
                commands = [line.split(",")[field] != "off" for field in COMMANDS]
                self.assertEqual(commands, [flag == "1" for flag in row.split(",")[3:6]], (case.name, row))

    def test_it_has_no_other_words(self):
        for words in (["why", ""], ["why", "1"], ["Why"]):
            self.assertEqual(collect(words, b""), ("", "sdm: bad words\n", 1))


if __name__ == "__main__":
    unittest.main()
