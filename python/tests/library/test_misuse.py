"""What is asked wrongly raises, changes nothing, and never ends the interpreter."""
import copy
import dataclasses
import pickle
import random
import threading
import unittest

import numpy as np

import sdm
from sdm import End, EndCalculated, Limit, Reading, Restriction, Revocation, SdmError, Status, Supervisor
from sdm.arrays import READING

from tests.folders import EXAMPLES

DATA = (EXAMPLES / "realistic" / "input").read_text().partition("%%\n")[0]
SOME = Reading(10, 3_000_000, 2_995_000, 3_005_000, 40_000)
HOSTILE_CALLS = 10_000
RAISED = (SdmError, TypeError, ValueError, OverflowError, AttributeError, KeyError)


def the_status(call, *words):
    """The status with which a call is refused; DONE where it isn't."""
    try:
        call(*words)
    except SdmError as why:
        return why.status
    return Status.DONE


class Misuse(unittest.TestCase):
    def setUp(self):
        self.supervisor = Supervisor(DATA)
        self.addCleanup(self.supervisor.close)

    def test_a_closed_supervisor(self):
        self.supervisor.close()
        self.supervisor.close()
        for call, word in (
            ("cycle", SOME),
            ("end", End(0, 0)),
            ("limit", Limit(0, 5)),
            ("revoke", Revocation(1)),
            ("display", SOME),
            ("causes", SOME),
            ("restrict", Restriction(1, 0, 1, 5)),
            ("end_calculated", EndCalculated(0, 0, 0)),
            ("cycles", sdm.readings(**vars(SOME))),
        ):
            self.assertEqual(the_status(getattr(self.supervisor, call), word), Status.CLOSED, call)

    def test_each_status(self):
        is_refused = lambda status, call, *words: self.assertEqual(
            the_status(getattr(self.supervisor, call), *words), status
        )
        before = self.supervisor.cycle(SOME)
        is_refused(Status.TIME_BACK, "cycle", Reading(9, *list(vars(SOME).values())[1:]))
        is_refused(Status.OUT_OF_RANGE, "cycle", Reading(10, 5, 6, 5, 0))
        is_refused(Status.OUT_OF_RANGE, "cycle", Reading(-1, 0, 0, 0, 0))
        is_refused(Status.OUT_OF_RANGE, "cycle", Reading(2**32 + 10, 0, 0, 0, 0))
        is_refused(Status.SVL_BEFORE_EOA, "end", End(2, 1))
        is_refused(Status.BEYOND_TRACK, "end", End(0, 600_001))
        is_refused(Status.BAD_SPEED, "end", End(0, 0, 501))
        is_refused(Status.BAD_TRIP, "end_calculated", EndCalculated(5, 6, 4))
        is_refused(Status.BEYOND_TRACK, "limit", Limit(600_001, 5))
        is_refused(Status.BAD_SPEED, "limit", Limit(5, 0))
        is_refused(Status.BAD_PLACES, "restrict", Restriction(1, 5, 5, 5))
        is_refused(Status.OUT_OF_RANGE, "restrict", Restriction(65_536, 0, 1, 5))
        is_refused(Status.UNKNOWN_ID, "revoke", Revocation(7))
        self.assertEqual(self.supervisor.cycle(SOME), before)
        for identity in range(32):
            self.supervisor.restrict(Restriction(identity, 590_000, 590_001, 160))
        is_refused(Status.FULL, "restrict", Restriction(99, 0, 1, 5))
        self.supervisor.revoke(Revocation(3))
        is_refused(Status.ID_IN_USE, "restrict", Restriction(4, 0, 1, 5))

    def test_a_change_of_data(self):
        following = Supervisor(DATA)
        self.addCleanup(following.close)
        self.supervisor.restrict(Restriction(4, 590_000, 590_001, 160))
        before = self.supervisor.cycle(SOME)
        following.take_over(self.supervisor)
        self.assertEqual(following.cycle(SOME), self.supervisor.cycle(SOME))
        self.assertEqual(the_status(following.restrict, Restriction(4, 0, 1, 5)), Status.ID_IN_USE)
        self.assertEqual(the_status(following.take_over, self.supervisor), Status.NOT_FRESH)
        self.assertEqual(self.supervisor.cycle(SOME), before)
        with Supervisor(DATA) as restricted:
            restricted.restrict(Restriction(1, 0, 1, 5))
            self.assertEqual(the_status(restricted.take_over, self.supervisor), Status.NOT_FRESH)
        self.assertEqual(the_status(restricted.take_over, self.supervisor), Status.CLOSED)
        self.assertEqual(the_status(Supervisor(DATA).take_over, restricted), Status.CLOSED)
        with self.assertRaises(TypeError):
            following.take_over(following)

    def test_a_restriction_past_the_new_track(self):
        shorter = Supervisor(DATA.replace("length = 600000", "length = 590000"))
        self.addCleanup(shorter.close)
        self.supervisor.restrict(Restriction(4, 590_000, 590_001, 160))
        self.assertEqual(the_status(shorter.take_over, self.supervisor), Status.BAD_PLACES)
        self.supervisor.revoke(Revocation(4))
        shorter.take_over(self.supervisor)

    def test_data_that_are_refused_carry_the_line(self):
        for data, status, line in (
            ("", Status.BAD_DATA, "sdm: bad data: missing version"),
            ("x", Status.BAD_DATA, "sdm: bad data: not TOML"),
            (
                DATA.replace("adhesion_max = 70", "adhesion_max = 0"),
                Status.BAD_DATA,
                "sdm: bad data: value national.adhesion_max",
            ),
            (
                DATA.replace("svl = 505000", "svl = 499999"),
                Status.REFUSED,
                "sdm: refused: supervised location before end",
            ),
        ):
            with self.assertRaises(SdmError) as caught:
                Supervisor(data)
            self.assertEqual((caught.exception.status, str(caught.exception)), (status, line))

    def test_other_types(self):
        for call, word in (
            ("cycle", "read"),
            ("cycle", End(0, 0)),
            ("cycle", None),
            ("end", SOME),
            ("take", 5),
            ("restrict", vars(SOME)),
            ("cycle", Reading(0.5, 0, 0, 0, 0)),
            ("revoke", Revocation("1")),
            ("cycles", np.zeros(3)),
            ("cycles", np.zeros((2, 2), READING)),
            ("cycles", np.zeros(3, READING.newbyteorder())),
            ("cycles", None),
        ):
            with self.assertRaises(TypeError, msg=(call, word)):
                getattr(self.supervisor, call)(word)
        for data in (5, None, [1], {"version": 1.5}, {"version": object()}, bytearray(b"version = 1")):
            with self.assertRaises(TypeError, msg=data):
                Supervisor(data)
        with self.assertRaises(sdm.FormError):
            sdm.run(DATA, "read,1,2\n")
        for records in (5, None, [5], [SOME, "read"], np.zeros(3)):
            for call in (sdm.run, sdm.display, sdm.causes):
                with self.assertRaises(sdm.KindError, msg=records):
                    call(DATA, records)
        for copied in (copy.copy, copy.deepcopy, pickle.dumps):
            with self.assertRaises(TypeError):
                copied(self.supervisor)

    def test_messages_name_the_field_its_value_and_what_is_expected(self):
        for call, record, told in (
            ("cycle", Reading(10, 5, 6, 5, 0), "out of range: min_mm is 6 mm, expected -10,000,000 to 5 mm"),
            ("cycle", Reading(-1, 0, 0, 0, 0), "out of range: time_ds is -1 ds, expected 0 to 100,000,000 ds"),
            ("end", End(2, 1), "supervised location before end: eoa_cm 2 cm, svl_cm 1 cm, release_kmh 0 km/h"),
            ("end", End(0, 0, 501), "bad speed: release_kmh is 501 km/h, expected 0 to 500 km/h"),
            ("restrict", Restriction(65_536, 0, 1, 5), "out of range: id is 65,536, expected 0 to 65,535"),
            ("revoke", Revocation(7), "identity unknown: id 7"),
        ):
            with self.assertRaises(SdmError) as caught:
                getattr(self.supervisor, call)(record)
            self.assertEqual(str(caught.exception), told)

    def test_a_library_that_is_none(self):
        from sdm.library import load

        for path in ("/dev/null", "/nowhere/libsdm.so", "libc.so.6"):
            with self.assertRaises(OSError):
                load(path)

    def test_threads_wait_for_each_other(self):
        rows = []

        def judge():
            for _ in range(300):
                rows.append(self.supervisor.cycle(SOME))

        threads = [threading.Thread(target=judge) for _ in range(4)]
        for thread in threads:
            thread.start()
        for thread in threads:
            thread.join()
        self.assertEqual((len(rows), len(set(rows))), (1200, 1))

    def test_hostile_calls_at_random(self):
        """Whatever is asked of supervisors that are open, closed or were never opened, each call returns or raises, and
        one that hears of those calls alone that were taken judges as they do."""
        rng, taken, raised = random.Random(7), 0, 0
        for count in range(HOSTILE_CALLS):
            if count % 50 == 0:
                supervisor, other = (
                    (Supervisor(DATA), Supervisor(DATA))
                    if rng.random() < 0.9
                    else (Supervisor.__new__(Supervisor),) * 2
                )
            name, words = a_call(rng)
            try:
                answer = getattr(supervisor, name)(*words)
                taken += 1
            except RAISED:
                raised += 1
                continue
            self.assertEqual(repr(getattr(other, name)(*words)), repr(answer))
        print(f"{taken} hostile calls were taken, {raised} raised")
        self.assertGreater(min(taken, raised), HOSTILE_CALLS // 20)


# fmt: off
NUMBERS = [
    0, 1, -1, 5, 10, 100, 500, 501, 65_535, 65_536, 600_000, 600_001, 3_000_000, 138_888, 2**31, -(2**31), 2**32, 2**63,
    2**64, -(2**70),
]
# fmt: on
# fmt: off
OTHERS = [
    None, "", "1", b"\0" * 28, 1.5, float("nan"), True, [], {}, object(), np.int64(7), np.uint8(3),
    np.zeros(0, READING),
]
# fmt: on
KINDS = [Reading, End, EndCalculated, Limit, Restriction, Revocation]


def a_call(rng):
    """A call of a supervisor by its name with words of any kind."""
    name = rng.choice(
        [
            "cycle",
            "display",
            "causes",
            "cycles",
            "end",
            "end_calculated",
            "limit",
            "restrict",
            "revoke",
            "take",
            "take_all",
            "_call",
        ]
        * 5
        + ["close"]
    )
    if rng.random() < 0.1:
        return name, tuple(rng.choice(OTHERS) for _ in range(rng.randrange(3)))
    if name == "close":
        return name, ()
    if name == "cycles":
        return name, (an_array(rng),)
    usual = {
        "cycle": Reading,
        "display": Reading,
        "causes": Reading,
        "end": End,
        "end_calculated": EndCalculated,
        "limit": Limit,
        "restrict": Restriction,
        "revoke": Revocation,
    }
    kind = usual.get(name, rng.choice(KINDS)) if rng.random() < 0.9 else rng.choice(KINDS)
    return name, ([a_record(rng, kind)] if name == "take_all" else a_record(rng, kind),)


def a_record(rng, kind):
    """A record, often one that is near to being right, whose fields may be anything."""
    if kind is Reading and rng.random() < 0.5:
        return Reading(rng.randrange(200), 3_000_000, 2_990_000, 3_010_000, rng.randrange(50_000))
    if rng.random() < 0.3:
        return {
            End: End(1000, 2000),
            EndCalculated: EndCalculated(1000, 2000, 1500),
            Limit: Limit(1000, 50),
            Reading: SOME,
            Restriction: Restriction(rng.randrange(40), 10, 20, 50),
            Revocation: Revocation(rng.randrange(40)),
        }[kind]
    count = len(dataclasses.fields(kind))
    return kind(*(rng.choice(NUMBERS if rng.random() < 0.95 else OTHERS) for _ in range(count)))


def an_array(rng):
    """An array of any bytes of any length, often of the type of readings."""
    length = rng.choice([0, 1, 2, 7])
    data = rng.randbytes(READING.itemsize * length)
    array = np.frombuffer(data, READING)
    return rng.choice(
        [
            array,
            array[::2],
            array[::-1],
            array.view(np.uint8),
            array.reshape(1, -1),
            array.astype(object),
            array["time_ds"],
        ]
    )
