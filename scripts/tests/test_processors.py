"""The steps of scripts/processors see what they rely on: another target, layout, export or instruction in the LLVM
module, an import of a WebAssembly module, a field without a place in the header. Over stand-ins, without a
toolchain."""
from __future__ import annotations

import tempfile
import unittest
from pathlib import Path
from unittest import mock

from scripts.c import header
from scripts.processors import binary, calls, journeys, layout, packed, released, retarget, script
from scripts.processors.targets import MACHINES, PROVED, WASM64
from scripts.tests import copies
from sdm.laboratory.cases import Case, case_of
from sdm.laboratory.program import Fault, Result
from sdm.rows import Status

CALLS = ["sdm_layout", "sdm_close"]
MODULE = f"""; ModuleID = 'of aarch64'
target datalayout = "{PROVED.layout}"
target triple = "{PROVED.triple}"

define noundef i32 @sdm_layout() #0 {{
  ret i32 2
}}

define void @sdm_close(ptr noundef %h) #0 {{
  %sum = call <16 x i8> @llvm.aarch64.neon.addp.v16i8(<16 x i8> zeroinitializer, <16 x i8> zeroinitializer)
  ret void
}}

define internal void @inner() #0 {{
  ret void
}}

declare <16 x i8> @llvm.aarch64.neon.addp.v16i8(<16 x i8>, <16 x i8>) #1
declare void @rattle_dealloc(ptr) #1

attributes #0 = {{ nounwind "target-cpu"="generic" "target-features"="+neon" }}
attributes #1 = {{ nounwind }}
"""


def number(value: int) -> bytes:
    """A number as WebAssembly writes it."""
    return bytes([value])


def module_of(imported: int, exported: dict[str, int]) -> bytes:
    """A WebAssembly module with nothing but its lists."""
    imports = number(imported)
    exports = number(len(exported)) + b"".join(
        number(len(name)) + name.encode() + number(kind) + number(0) for name, kind in exported.items()
    )
    sections = ((binary.IMPORTS, imports), (binary.EXPORTS, exports))
    return binary.MAGIC + b"".join(number(kind) + number(len(body)) + body for kind, body in sections)


class Retargeted(unittest.TestCase):
    def test_the_target_changes_and_the_code_stays(self) -> None:
        text = retarget.retargeted(MODULE, *WASM64, CALLS)
        self.assertIn(f'target triple = "{WASM64[0]}"', text)
        self.assertIn("call <16 x i8> @addp(", text)
        self.assertNotRegex(text, "(?i)aarch64|neon")
        self.assertIn("define internal void @inner() #0 {\n  ret void\n}", text)

    def test_the_calls_are_exported_and_nothing_else_is(self) -> None:
        text = retarget.exporting(retarget.retargeted(MODULE, *WASM64, CALLS), CALLS)
        self.assertIn('define noundef i32 @sdm_layout() "wasm-export-name"="sdm_layout" #0 {', text)
        self.assertEqual(text.count("wasm-export-name"), len(CALLS))

    def test_results_are_wide_where_the_machine_asks_for_it(self) -> None:
        riscv64 = MACHINES["riscv64"]
        text = retarget.retargeted(MODULE, riscv64.triple, riscv64.layout, CALLS)
        self.assertIn("define noundef signext i32 @sdm_layout()", retarget.with_wide_results(text, riscv64, CALLS))

    def refused(self, old: str, new: str, told: str) -> None:
        self.assertIn(old, MODULE)
        with self.assertRaisesRegex(Fault, told):
            retarget.retargeted(MODULE.replace(old, new, 1), *WASM64, CALLS)

    def test_another_toolchain_is_refused(self) -> None:
        self.refused("i128:128-n32", "i128:128-n16", "hasn't the one line target datalayout")
        self.refused("aarch64-unknown", "arm64-unknown", "hasn't the one line target triple")
        self.refused("@sdm_close", "@sdm_clear", "the module defines sdm_clear sdm_layout")
        self.refused("define internal void @inner", "define void @inner", "the module defines inner")
        self.refused("@rattle_dealloc", "@free", "the module asks for free")
        self.refused("call <16 x i8> @llvm.aarch64.neon.addp", "call <16 x i8> @llvm.aarch64.x", "old processor")


class Binary(unittest.TestCase):
    def test_imports_and_exports_are_read(self) -> None:
        module = module_of(3, {"memory": 2, "sdm_layout": 0})
        self.assertEqual(binary.imports(module), 3)
        self.assertEqual(binary.exports(module), {"memory": "memory", "sdm_layout": "function"})

    def test_what_is_no_module_is_refused(self) -> None:
        with self.assertRaises(Fault):
            binary.imports(b"\x7fELF")


class Layout(unittest.TestCase):
    def over(self, old: str, new: str) -> None:
        text = header.text()
        self.assertIn(old, text)
        with mock.patch.object(header, "text", lambda: text.replace(old, new)):
            layout.structs()
            layout.calls()

    def test_each_field_has_the_place_that_compilers_check(self) -> None:
        for old in ("SDM_AT(sdm_row, tco, 12);\n", "SDM_SIZE(sdm_row, 112);\n"):
            with self.assertRaises(Fault):
                self.over(old, "")

    def test_a_kind_that_is_not_known_is_refused(self) -> None:
        with self.assertRaises(Fault):
            self.over("uint32_t tco; ", "uint16_t tco; ")

    def test_what_is_generated_has_each_call(self) -> None:
        for name in layout.names():
            self.assertIn(f"  {name}: [", script.module())
            self.assertRegex(calls.source(), rf"(?m)^(uint32_t|void) {name}\(")

    def test_a_number_of_a_record_has_the_type_that_its_call_takes(self) -> None:
        another = "struct sdm_other {\n    uint32_t accel_cm_s2;\n};\nSDM_SIZE(sdm_other, 4);\n"
        text = header.text() + another + "SDM_AT(sdm_other, accel_cm_s2, 0);\n"
        with mock.patch.object(header, "text", lambda: text):
            self.assertIn('{ name: "accel_cm_s2", kind: "int32_t"', script.module())

    def test_python_and_the_header_have_the_same_numbers(self) -> None:
        text = header.text()
        with mock.patch.object(header, "text", lambda: text.replace("SDM_NOT_FRESH = 16", "SDM_NOT_FRESH = 17")):
            with self.assertRaises(Fault):
                script.module()


class Packed(unittest.TestCase):
    def test_numbers_are_groups_of_seven_bits(self) -> None:
        self.assertEqual(packed.number(0), b"\x00")
        self.assertEqual(packed.number(-1), b"\x01")
        self.assertEqual(packed.number(63), b"\x7e")
        self.assertEqual(packed.number(64), b"\x80\x01")
        self.assertEqual(packed.number(-(2**63)), b"\xff" * 9 + b"\x01")

    def test_the_example_has_a_step_for_each_record(self) -> None:
        journey = packed.journey(case_of(copies.TOP / "examples" / "approach", "approach"))
        assert journey is not None
        self.assertTrue(journey.startswith(b"\x10approach\x00"))
        first = b"".join(map(packed.number, [0, 0, 799990, 799990, 799990, 20000, 0, 0, 0, 0, 1, 3, 1]))
        self.assertIn(first, journey)
        self.assertTrue(journey.endswith(packed.number(packed.LAST)))

    def test_a_refusal_ends_a_journey_with_its_status(self) -> None:
        data = (copies.TOP / "examples" / "approach" / "input").read_bytes().partition(b"%%\n")[0]
        refused = Result("", "sdm: bad event 1: identity unknown\n", 7)
        journey = packed.journey(Case("revoked", ["run"], data + b"%%\nrevoke,7\nrevoke,8\n", refused))
        assert journey is not None
        step = [packed.KINDS.index("revoke"), 7, Status.UNKNOWN_ID, packed.LAST]
        self.assertTrue(journey.endswith(packed.text(b"") + b"".join(map(packed.number, step))))


class Altered(unittest.TestCase):
    def test_each_field_of_the_first_and_the_last_row_is_altered_alone(self) -> None:
        case = case_of(copies.TOP / "examples" / "approach", "approach")
        assert case.due is not None
        found, right = list(journeys.altered(case)), case.due.rows.replace("\n", ",").split(",")
        self.assertEqual(len(found), 2 * 13)
        for each in found:
            assert each.due is not None
            fields = each.due.rows.replace("\n", ",").split(",")
            self.assertEqual(sum(one != other for one, other in zip(fields, right, strict=True)), 1, each.name)

    def test_a_refusal_a_line_and_a_status_are_altered(self) -> None:
        names = [case.name for case in journeys.altered(journeys.going_back())]
        self.assertIn("a time that goes back, another refusal", names)
        refused = [case.name for case in journeys.altered(case_of(copies.TOP / "examples" / "refused-data", "data"))]
        self.assertEqual(refused, ["data, another line", "data, another status"])

    def test_no_two_are_packed_alike(self) -> None:
        found = journeys.packed_altered()
        self.assertEqual(len(set(found)), len(found))


class Released(unittest.TestCase):
    def test_a_release_without_a_part_is_refused(self) -> None:
        with tempfile.TemporaryDirectory() as name:
            dist = Path(name) / "dist"
            dist.mkdir()
            for kinds in released.OF_WAYS.values():
                for kind in kinds:
                    (dist / kind.replace("*", "1.0.0")).touch()
            (dist / "sdm-1.0.0-c.tar.gz").unlink()
            with mock.patch.object(released, "ran"), self.assertRaisesRegex(Fault, "hasn't one each of sdm-.*-c.tar"):
                released.unpacked(dist, Path(name) / "into")


if __name__ == "__main__":
    unittest.main()
