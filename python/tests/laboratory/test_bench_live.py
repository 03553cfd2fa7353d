"""bench-live moves a train as its scenario says, obeys the rows in time, and keeps what went to and fro."""
import tempfile
import unittest
from pathlib import Path

from tests.folders import EXAMPLES
from tests.tool import program, tool

DATA = (EXAMPLES / "approach" / "input").read_text()
SCENARIO = """
data = "input"
duration = 100
period = 5
latency = {latency}

[train]
place = 500_000
speed = 10_000
emergency = 100
emergency_build_up = 10

[[driver]]
start = 0
accel = 0
"""
# A program that passes over the data, and answers each reading by a row; the emergency brake from 1 s on.
ANSWERS = """
while read -r line; do [ "$line" = "%%" ] && break; done
while IFS=, read -r kind time rest; do
    case $kind in
    read) eb=$((time >= 10)); echo "$time,C,N,0,0,$eb,1,160,1,1,1,1,1" ;;
    revoke) echo "refused: identity unknown" ;;
    *) echo taken ;;
    esac
done
"""


class BenchLive(unittest.TestCase):
    def setUp(self):
        room = tempfile.TemporaryDirectory()
        self.addCleanup(room.cleanup)
        self.room = Path(room.name)
        (self.room / "input").write_text(DATA)

    def bench(self, more="", latency=0, answers=ANSWERS):
        (self.room / "scenario.toml").write_text(SCENARIO.format(latency=latency) + more)
        return tool(
            "bench-live", self.room / "scenario.toml", self.room / "into", "--program", program(self.room, answers)
        )

    def readings(self):
        sent = (self.room / "into" / "input").read_text().partition("%%\n")[2]
        return [line.split(",") for line in sent.splitlines()]

    def test_a_brake_works_once_it_has_built_up(self):
        # 10 m/s until 2 s (ordered at 1 s, built up in 1 s), then 1 m/s² less for 8 s: 20 m and 48 m from 500 m on.
        code, told, err = self.bench()
        self.assertEqual((code, err), (0, ""))
        self.assertIn("21 readings, 21 of them covered; service brake at 0, emergency brake at 19", told)
        self.assertIn("front end at 568000 mm with 2000 mm/s, 432000 mm before the SvL", told)

    def test_the_way_is_exact(self):
        self.bench()
        fronts = {int(fields[1]): int(fields[2]) for fields in self.readings()}
        self.assertEqual([fronts[0], fronts[10], fronts[20], fronts[30]], [500_000, 510_000, 520_000, 529_500])

    def test_a_latency_holds_the_order_back(self):
        self.bench(latency=5)
        speeds = {int(fields[1]): int(fields[5]) for fields in self.readings()}
        self.assertEqual([speeds[20], speeds[25], speeds[30]], [10_000, 10_000, 9_500])

    def test_messages_go_before_the_next_reading(self):
        code, told, _ = self.bench('[[message]]\ntime = 3\nrecord = "revoke,7"\n')
        self.assertEqual(code, 0)
        self.assertIn("1 records refused", told)
        first = [fields[:2] for fields in self.readings()[:3]]
        self.assertEqual(first, [["read", "0"], ["revoke", "7"], ["read", "5"]])
        self.assertEqual(len((self.room / "into" / "rows").read_text().splitlines()), 21)

    def test_readings_are_true(self):
        self.bench("[odometer]\nseed = 3\nahead = 700\nbehind = 400\nunder = 300\n")
        for kind, time, est, least, most, speed, _, under in self.readings():
            if int(time) <= 20:
                true = 500_000 + 1_000 * int(time)
                self.assertTrue(int(least) <= true <= int(most), time)
                self.assertTrue(int(speed) <= 10_000 <= int(speed) + int(under), time)
            self.assertEqual((kind, int(est) - int(least), int(most) - int(est)), ("read", 400, 700))

    def test_a_train_that_passes_the_svl_is_told_by_the_status(self):
        code, told, _ = self.bench(answers=ANSWERS.replace("time >= 10", "time > 99999"))
        self.assertEqual((code, "900000 mm before" in told), (0, False))
        (self.room / "input").write_text(DATA.replace("= 100000\n", "= 55000\n"))
        self.assertEqual(self.bench(answers=ANSWERS.replace("time >= 10", "time > 99999"))[0], 1)

    def test_what_is_wrong_is_told(self):
        for more, wrong in (
            ("[odometer]\nsway = 1\n", "odometer has the key sway"),
            ("[odometer]\nseed = 1.5\n", "odometer: seed is 1.5, and must be a whole number"),
        ):
            code, _, err = self.bench(more)
            self.assertEqual(code, 2)
            self.assertIn(wrong, err)
        code, _, err = self.bench(answers="exit 3")
        self.assertEqual(code, 2)
        self.assertRegex(err, "The program (ended with 3|gave no answer to .*, and ended with 3)")


if __name__ == "__main__":
    unittest.main()
