"""The structs and numbers of the package are those of c/sdm.h."""
import ctypes
import re
import unittest

from sdm import library, rows

from tests.folders import TOP

HEADER = (TOP / "c" / "sdm.h").read_text()
STRUCTS = {
    "sdm": library.Handle,
    "sdm_line": library.LineStruct,
    "sdm_reading": library.ReadingStruct,
    "sdm_place": library.PlaceStruct,
    "sdm_row": library.RowStruct,
    "sdm_restriction": library.RestrictionStruct,
    "sdm_allowance": library.AllowanceStruct,
    "sdm_display": library.DisplayStruct,
    "sdm_cause": library.CauseStruct,
    "sdm_causes": library.CausesStruct,
}
ENUMS = {
    "sdm_status": rows.Status,
    "sdm_field": rows.Field,
    "sdm_state": rows.State,
    "sdm_supervision": rows.Supervision,
    "sdm_target": rows.Target,
    "sdm_rule": rows.Rule,
    "sdm_standing": rows.Standing,
}

OWN_NAMES = {"NO_TARGET": "NONE", "NO_RULE": "NONE", "ABOVE_CEILING": "CEILING", "PAST_TARGET": "TARGET"}
OWN_NAMES |= {"PAST_END": "END", "ABOVE_RELEASE": "RELEASE_SPEED"}


class Layout(unittest.TestCase):
    def test_sizes_and_offsets(self):
        sizes = dict(re.findall(r"^SDM_SIZE\((\w+), (\d+)\);", HEADER, re.M))
        self.assertEqual(
            {name: ctypes.sizeof(struct) for name, struct in STRUCTS.items()},
            {name: int(size) for name, size in sizes.items()},
        )
        due = {
            (struct, field): int(at)
            for struct, field, at in re.findall(r"^SDM_AT\((\w+), (\w+), (\d+)\);", HEADER, re.M)
        }
        due |= {("sdm_place", "mm"): 0, ("sdm_place", "is_some"): 8}
        found = {
            (name, field): getattr(struct, field).offset
            for name, struct in STRUCTS.items()
            for field, *_ in struct._fields_
        }
        self.assertEqual(found, due)

    def test_fields_have_the_header_s_types(self):
        kinds = {
            "uint32_t": ctypes.c_uint32,
            "int32_t": ctypes.c_int32,
            "int64_t": ctypes.c_int64,
            "struct sdm_place": library.PlaceStruct,
            "struct sdm_cause": library.CauseStruct,
        }
        for name in set(STRUCTS) - {"sdm", "sdm_line"}:
            body = re.search(rf"^struct {name} {{\n(.*?)^}};", HEADER, re.M | re.S)[1]
            due = [(field, kinds[kind]) for kind, field in re.findall(r"^ {4}((?:struct )?\w+) (\w+);", body, re.M)]
            self.assertEqual(list(STRUCTS[name]._fields_), due)

    def test_numbers_of_enums(self):
        for name, enum in ENUMS.items():
            body = re.search(rf"^enum {name} {{(.*?)}};", HEADER, re.M | re.S)[1]
            due = {int(number) for number in re.findall(r"SDM_\w+ = (\d+)", body)}
            self.assertEqual(set(range(len(enum))), due)
        status = re.search(r"^enum sdm_status {(.*?)};", HEADER, re.M | re.S)[1]
        self.assertEqual(
            {each.name: each.value for each in rows.Status},
            {word: int(n) for word, n in re.findall(r"SDM_(\w+) = (\d+)", status)},
        )

    def test_words_stand_in_the_order_of_their_numbers(self):
        for name, kind in ENUMS.items():
            body = re.search(rf"^enum {name} {{(.*?)}};", HEADER, re.M | re.S)[1]
            words = {int(number): word for word, number in re.findall(r"SDM_(\w+) = (\d+)", body)}
            due = [OWN_NAMES.get(words[number], words[number]) for number in range(len(words))]
            self.assertEqual([word.name for word in kind], due)

    def test_the_number_of_the_layout(self):
        self.assertEqual(library.LAYOUT, int(re.search(r"^#define SDM_LAYOUT (\d+)u", HEADER, re.M)[1]))
