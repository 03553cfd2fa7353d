"""What is packed: the libraries show the calls of the header and nothing else, links lead where their targets stand, an
archive has the same bytes wherever it is made, and only a marked program and a clean work tree are packed. Over
stand-ins, with nothing that a gate lacks; `scripts/house check release` tries the whole."""
from __future__ import annotations

import subprocess
import tempfile
import unittest
from pathlib import Path
from zipfile import ZipFile

from scripts.c import header
from scripts.packing import archive, bill, library, places, python, release, sums, tree, web
from scripts.packing.facts import Contents, Release
from scripts.pages import manual
from scripts.tests import copies
from sdm.laboratory.program import Fault

TEXT = header.text()
CALLS = tuple(call.name for call in header.calls(TEXT))
RELEASE = Release(
    "1.2.3", "c0ffee", 1_700_000_000, "A Builder <builder@example.org>", "kit", "sum", header.layout(TEXT), CALLS
)
ANSWERS = "".join(f"unsigned {call}(void) {{ return helper(); }}\n" for call in CALLS if call not in header.texts(TEXT))
MORE = "unsigned helper(void); unsigned helper(void) { return 1; }\n"


def printed(*words: object) -> str:
    """What a command prints."""
    return subprocess.run([str(word) for word in words], capture_output=True, text=True, check=True).stdout


class Scratch(unittest.TestCase):
    """Each test in a folder of its own."""

    def setUp(self) -> None:
        folder = tempfile.TemporaryDirectory()
        self.addCleanup(folder.cleanup)
        self.top = Path(folder.name)

    def folder(self, name: str) -> Path:
        """A new folder."""
        (self.top / name).mkdir(parents=True)
        return self.top / name


class Header(unittest.TestCase):
    def test_each_declaration_is_a_call(self) -> None:
        declared = [
            line
            for line in TEXT.splitlines()
            if line.startswith(("uint32_t sdm", "SDM_MUST", "void sdm", "const char"))
        ]
        self.assertEqual(len(declared), len(CALLS))

    def test_each_answer_that_is_a_status_must_be_checked(self) -> None:
        unchecked = {call.name for call in header.calls(TEXT) if not call.must_be_checked}
        asked = {"sdm_layout", "sdm_version", "sdm_reading_field", "sdm_restriction_field", "sdm_allowance_field"}
        texts = {f"sdm_{each}_text" for each in ("status", "state", "supervision", "rule", "field")}
        self.assertEqual(unchecked, {*asked, *texts, "sdm_close"})

    def test_each_language_has_each_status_by_its_number(self) -> None:
        wrapper, binding = ((copies.TOP / "c" / name).read_text() for name in ("sdm.hpp", "ada/sdm.ads"))
        for name, number in header.statuses(TEXT).items():
            self.assertIn(f"    {name.lower()} = SDM_{name},\n", wrapper)
            self.assertRegex(binding, rf"(?i)\n   {name} +: constant Word := {number};")
        self.assertEqual(len(header.statuses(TEXT)), 17)

    def test_the_binding_is_of_the_headers_layout(self) -> None:
        self.assertIn(
            f"Layout_Of_Binding : constant Word := {header.layout(TEXT)};", (copies.TOP / "c/ada/sdm.ads").read_text()
        )


class Libraries(Scratch):
    def setUp(self) -> None:
        super().setUp()
        (self.top / "calls.c").write_text(MORE + ANSWERS)
        printed("cc", "-fPIC", "-c", "-o", self.top / "calls.o", self.top / "calls.c")
        printed("ar", "rcsD", self.top / "libcalls.a", self.top / "calls.o")
        self.contents = Contents(Path("/bin/true"), self.top / "libcalls.a", copies.TOP, self.top)

    def test_the_shared_library_shows_the_calls_with_their_version(self) -> None:
        library.make_shared(
            library.of_supervisor(RELEASE, self.contents), self.contents, self.folder("scratch"), self.folder("lib")
        )
        shown = printed(
            "nm", "--dynamic", "--defined-only", "--with-symbol-versions", self.top / "lib" / "libsdm.so"
        ).split()[2::3]
        self.assertEqual(
            sorted(shown), sorted([f"SDM_{RELEASE.layout}", *(f"{call}@@SDM_{RELEASE.layout}" for call in CALLS)])
        )
        name = f"libsdm.so.{RELEASE.layout}"
        dynamic = printed("readelf", "--dynamic", self.top / "lib" / name)
        self.assertIn(f"[{name}]", dynamic)
        self.assertEqual(dynamic.count("(NEEDED)"), 1)
        self.assertIn("[libc.so.6]", dynamic)

    def test_the_static_library_shows_the_calls_and_a_heap_of_its_own_file(self) -> None:
        library.make_static(
            library.of_supervisor(RELEASE, self.contents), self.contents, self.folder("scratch"), self.folder("lib")
        )
        lines = printed(
            "nm", "--extern-only", "--defined-only", "--format=just-symbols", self.top / "lib" / "libsdm.a"
        ).split()
        self.assertEqual(
            {line for line in lines if not line.endswith(":")},
            {*CALLS, "rattle_alloc", "rattle_realloc", "rattle_dealloc"},
        )
        self.assertIn("heap_malloc.o", printed("ar", "t", self.top / "lib" / "libsdm.a").split())

    def test_a_library_that_asks_for_more_than_libc_is_not_linked(self) -> None:
        (self.top / "calls.c").write_text("unsigned helper(void);\n" + ANSWERS)
        printed("cc", "-fPIC", "-c", "-o", self.top / "calls.o", self.top / "calls.c")
        printed("ar", "rcsD", self.top / "libcalls.a", self.top / "calls.o")
        with self.assertRaisesRegex(Fault, "helper"):
            library.make_shared(
                library.of_supervisor(RELEASE, self.contents), self.contents, self.folder("scratch"), self.folder("lib")
            )


class Commands(Scratch):
    """The libraries of every command as a call, over a crate that does nothing."""

    NAMES = ["layout", "into", *(f"live_{name}" for name in ("open", "feed", "end", "close"))]
    CRATE = "".join(f"unsigned sdm_calls_{name}(void) {{ return 1; }}\n" for name in NAMES)

    def setUp(self) -> None:
        super().setUp()
        (self.top / "crate.c").write_text(self.CRATE)
        printed("cc", "-fPIC", "-c", "-o", self.top / "crate.o", self.top / "crate.c")
        printed("ar", "rcsD", self.top / "libcrate.a", self.top / "crate.o")
        self.contents = Contents(Path("/bin/true"), Path(), copies.TOP, self.top)
        self.made = library.of_commands(self.contents, self.top / "libcrate.a")
        self.calls = {call.name for call in header.calls((copies.TOP / "c" / "sdm_calls.h").read_text())}

    def test_the_shared_library_shows_the_calls_with_their_version(self) -> None:
        library.make_shared(self.made, self.contents, self.folder("scratch"), self.folder("lib"))
        shown = printed(
            "nm", "--dynamic", "--defined-only", "--with-symbol-versions", self.top / "lib" / "libsdm-calls.so.1"
        ).split()[2::3]
        self.assertEqual(set(shown), {"SDM_CALLS_1", *(f"{call}@@SDM_CALLS_1" for call in self.calls)})

    def test_the_static_library_shows_the_calls_and_a_heap_of_its_own_file(self) -> None:
        library.make_static(self.made, self.contents, self.folder("scratch"), self.folder("lib"))
        lines = printed(
            "nm", "--extern-only", "--defined-only", "--format=just-symbols", self.top / "lib" / "libsdm-calls.a"
        ).split()
        self.assertEqual(
            {line for line in lines if not line.endswith(":")},
            {*self.calls, "rattle_alloc", "rattle_realloc", "rattle_dealloc"},
        )
        self.assertIn("heap_malloc.o", printed("ar", "t", self.top / "lib" / "libsdm-calls.a").split())

    def test_each_language_has_each_code_by_its_number(self) -> None:
        codes = header.codes((copies.TOP / "c" / "sdm_calls.h").read_text())["sdm_code"]
        wrapper, binding = ((copies.TOP / "c" / name).read_text() for name in ("sdm_calls.hpp", "ada/sdm_calls.ads"))
        for name, number in codes.items():
            short = name.removeprefix("SDM_CODE_")
            self.assertRegex(wrapper, rf"\n    {short.lower()} = {name},?\n")
            self.assertRegex(binding, rf"(?i)\n   {short} +: constant Word := {number};")
        self.assertEqual(len(codes), 11)


class Pages(Scratch):
    def test_what_is_packed_has_a_place(self) -> None:
        for path, place in {
            "README.md": "share/doc/sdm/html/index.html",
            "docs/FORMATS.md": "share/doc/sdm/html/docs/FORMATS.html",
            "c/sdm.h": "include/sdm.h",
            "c/onboard.c": "share/sdm/c/onboard.c",
            "examples": "share/sdm/examples",
            "vectors/run/x/input": "share/sdm/vectors/run/x/input",
            "crates/sdm/src/main.rt": None,
            "tools/README.md": None,
            "vectors/maker/x.py": None,
            "cargo/x": None,
        }.items():
            self.assertEqual(places.place_or_none(path), place)

    def test_a_link_leads_to_where_its_target_stands(self) -> None:
        for page, target, to in [
            ("README.md", "docs/PROFILE.md#targets", "docs/PROFILE.html#targets"),
            ("docs/INTEGRATION.md", "../README.md", "../index.html"),
            ("docs/INTEGRATION.md", "../c/sdm.h", "../../../../../include/sdm.h"),
            ("examples/approach/README.md", "rows", "../../../../../sdm/examples/approach/rows"),
            ("README.md", "#an-example", "#an-example"),
            ("README.md", "https://example.org", "https://example.org"),
            ("README.md", "crates/sdm_onboard/src/main.rt", None),
        ]:
            self.assertEqual(web.target_of(page, target), to)

    def test_a_link_to_what_is_not_packed_becomes_text(self) -> None:
        text = [{"t": "Str", "c": "code"}]
        link = {"t": "Link", "c": [["", [], []], text, ["crates/sdm/src/main.rt", ""]]}
        self.assertEqual(web.linked("README.md", [link]), [{"t": "Span", "c": [["", ["elsewhere"], []], text]}])

    def test_a_link_that_leads_nowhere_is_told(self) -> None:
        (self.top / "index.html").write_text('<a href="other.html#part">a</a><a href="#here">b</a><h1 id="here">c</h1>')
        (self.top / "other.html").write_text('<h1 id="another">d</h1><img src="gone.svg">')
        self.assertEqual(
            web.faults_of_links(self.top),
            ["index.html: other.html#part leads nowhere", "other.html: gone.svg leads nowhere"],
        )
        with self.assertRaisesRegex(Fault, "leads nowhere"):
            web.check_links(self.top)
        self.assertEqual(web.faults_of_links(self.folder("empty")), ["there is no page"])


class Bills(Scratch):
    def test_the_bill_names_each_file_and_what_was_linked(self) -> None:
        (self.folder("prefix/bin") / "sdm").write_text("program")
        (self.top / "prefix/bin/link").symlink_to("sdm")
        told = bill.bill(RELEASE, Contents(Path(), Path(), copies.TOP, Path()), self.top / "prefix")
        self.assertEqual([file["fileName"] for file in told["files"]], ["./bin/sdm"])
        digests = {each["algorithm"]: each["checksumValue"] for each in told["files"][0]["checksums"]}
        self.assertEqual(digests["SHA256"], printed("sha256sum", self.top / "prefix/bin/sdm").split()[0])
        named = {package["name"] for package in told["packages"]}
        self.assertLessEqual(
            {"sdm", "rattle-kit", "rattle-crate-std", "rattle-crate-toml", "rattle-crate-csv", "glibc"}, named
        )
        self.assertFalse({name for name in named if name.startswith("rattle-crate-sdm")})
        known = {"SPDXRef-DOCUMENT", *(each["SPDXID"] for each in [*told["packages"], *told["files"]])}
        self.assertLessEqual(
            {each for line in told["relationships"] for each in (line["spdxElementId"], line["relatedSpdxElement"])},
            known,
        )


class Bytes(Scratch):
    def packed(self, name: str) -> bytes:
        """A folder as an archive, made where another has another time and mode."""
        top = self.folder(f"{name}/{RELEASE.name}")
        (top / "bin").mkdir()
        (top / "bin" / "sdm").write_text("program")
        (top / "page").write_text("text")
        (top / "page").chmod(0o600 if name == "one" else 0o666)
        (top / "tool").write_text("#!/bin/sh\n")
        (top / sums.NAME).write_text(sums.of_files_below(top))
        tree.settle(RELEASE, top)
        archive.pack_folder(RELEASE, top, self.top / f"{name}.tar.gz")
        return (self.top / f"{name}.tar.gz").read_bytes()

    def test_an_archive_has_the_same_bytes_wherever_it_is_made(self) -> None:
        self.assertEqual(self.packed("one"), self.packed("other"))
        listed = printed("tar", "--list", "--verbose", "--file", self.top / "one.tar.gz")
        self.assertRegex(listed, r"-rwxr-xr-x 0/0 +7 2023-11-14 \d\d:\d\d sdm-1.2.3-x86_64-linux/bin/sdm\n")
        self.assertRegex(listed, r"-rwxr-xr-x 0/0 +10 2023-11-14 \d\d:\d\d sdm-1.2.3-x86_64-linux/tool\n")
        self.assertRegex(listed, r"-rw-r--r-- 0/0 +4 2023-11-14 \d\d:\d\d sdm-1.2.3-x86_64-linux/page\n")
        printed("tar", "--extract", "--directory", self.top, "--file", self.top / "one.tar.gz")
        checked = subprocess.run(
            ["sha256sum", "--check", "--strict", sums.NAME],
            cwd=self.top / RELEASE.name,
            capture_output=True,
            text=True,
        )
        self.assertEqual((checked.returncode, checked.stdout), (0, "bin/sdm: OK\npage: OK\ntool: OK\n"))


class Named(Scratch):
    def test_a_commit_with_changes_since_the_version_is_named_too(self) -> None:
        changelog = "# Changelog\n\n## [Unreleased]\n\n## [1.2.3] - 2026-01-02\n\n### Added\n\n- It.\n"
        self.assertEqual(release.version_of("c0ffee1234", changelog), manual.version())
        changed = changelog.replace("[Unreleased]\n", "[Unreleased]\n\n### Fixed\n\n- More.\n")
        self.assertEqual(release.version_of("c0ffee1234", changed), f"{manual.version()}+c0ffee12")

    def test_debian_has_the_modules_of_the_wheel_without_its_library(self) -> None:
        wheel, usr = self.top / "sdm.whl", self.folder("usr")
        with ZipFile(wheel, "w") as packed:
            for name in ("sdm/__init__.py", "sdm/libsdm.so", "sdm-1.dist-info/METADATA", "sdm-1.dist-info/RECORD"):
                packed.writestr(name, "")
        python.write_for_debian(wheel, usr)
        modules = ["sdm-1.dist-info/METADATA", "sdm/__init__.py"]
        self.assertEqual(
            sorted(path.relative_to(usr).as_posix() for path in usr.rglob("*") if path.is_file()),
            ["bin/sdm-tools", *(f"lib/python3/dist-packages/{name}" for name in modules)],
        )


class Refused(unittest.TestCase):
    """scripts/release over a copy in which a program is marked, until something is wrong."""

    parts = ["CHANGELOG.md", "HANDLES", "c", "crates.txt", "crates/sdm", "scripts", "tools", "python", ".gitignore"]

    def setUp(self) -> None:
        copy = copies.a_copy(self.parts)
        self.top = copy.__enter__()
        self.addCleanup(copy.__exit__, None, None, None)
        self.commit()

    def commit(self) -> None:
        """A commit of all that lies in the copy."""
        who = ["-c", "user.name=A", "-c", "user.email=a@example.org"]
        printed("git", "-C", self.top, "add", "--all")
        printed("git", "-C", self.top, *who, "commit", "--quiet", "--message", "All of it")

    def refusal(self) -> str:
        """What scripts/release tells that packs nothing."""
        status, told = copies.ended(self.top, "scripts/house", "release")
        self.assertEqual(status, 1, told)
        self.assertFalse((self.top / "dist").exists())
        return told

    def test_no_program_and_one_without_a_mark_are_refused(self) -> None:
        self.assertIn("There is no program", self.refusal())
        copies.stand_in(self.top)
        self.assertIn("has no mark of the sources", self.refusal())

    def test_a_program_of_other_sources_is_refused(self) -> None:
        copies.stand_in(self.top)
        copies.marked_as_it_is(self.top)
        copies.alter(self.top, "crates/sdm/src/main.rt", r"\Z", "\n")
        self.commit()
        self.assertIn("is built from other sources than these", self.refusal())

    def test_a_work_tree_that_is_not_clean_is_refused(self) -> None:
        copies.stand_in(self.top)
        copies.marked_as_it_is(self.top)
        copies.alter(self.top, "c/sdm.h", r"\Z", "\n")
        self.assertIn("isn't clean", self.refusal())

    def test_words_are_refused(self) -> None:
        self.assertEqual(copies.ended(self.top, "scripts/house", "release", "--program", "/bin/true")[0], 2)
