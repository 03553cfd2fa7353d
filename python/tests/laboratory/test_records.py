"""The package's own reader of records takes what the model takes, and refuses the rest by the same text."""
import re
import unittest

import sdm
from sdm.toml_text import toml
from sdm_evidence.makers.documents import a_document
from sdm_evidence.makers.journeys import make
from sdm_evidence.model.data import read_document, split
from sdm_evidence.model.outcome import Outcome, Refused
from sdm_evidence.model.records import event_of, records

SEEDS = range(300)
ODD = [
    b"",
    b"\n\r\n\r\r\n",
    b'"revoke","1"\rrevoke,2\r\n"rev"oke,3',
    b'revoke,"4\n',
    b'"a ""quoted"" kind",1\nrevoke,5\n',
    b"\xef\xbb\xbfrevoke,6\n",
    b'""\n',
    b"revoke,\xff\n",
    b"limit,1," + b"0" * 200_000 + b"\n",
    b"read,0,5,6,5,0,0,0\n",
    b"read,0,5,5,4,0,0,0\n",
    b"revoke,\xd9\xa1\n",
]


OWN = re.compile(r"record \d+: (unknown kind|field count|field \d+: (not a number|out of range))")


def by_the_model(text):
    """The numbers of the records of a text, up to the first that is refused, and why it is."""
    found = []
    for number, fields in enumerate(records(text), 1):
        try:
            found.append(tuple(event_of(fields)))
        except Refused as why:
            return found, f"record {number}: {why}"
    return found, None


def by_the_package(text):
    """The same by the package."""
    found = []
    try:
        for record in sdm.records_of(text):
            found.append(tuple(int(field) for field in record.text().rstrip().split(",")[1:]))
    except sdm.Error as why:
        return found, OWN.match(str(why))[0]  # behind it stands what was found and expected
    return found, None


class OwnReader(unittest.TestCase):
    def test_odd_texts_are_taken_and_refused_as_by_the_model(self):
        for text in ODD:
            with self.subTest(text[:40]):
                self.assertEqual(by_the_package(text), by_the_model(text))

    def test_made_journeys_are_taken_and_refused_as_by_the_model(self):
        compared = refused = 0
        for seed in SEEDS:
            words, _, data = make(seed)
            try:
                text = split(data)[1]
            except Outcome:
                continue
            with self.subTest(seed):
                due = by_the_model(text)
                self.assertEqual(by_the_package(text), due)
            compared, refused = compared + 1, refused + (due[1] is not None)
        self.assertGreater(compared, 200)
        self.assertGreater(refused, 20)

    def test_a_table_is_written_as_one_that_reads_back(self):
        from random import Random

        for seed in range(50):
            table = a_document(Random(seed), 1 + seed % 2)
            self.assertEqual(read_document(toml(table).encode()), table)
