"""The bill of materials, in SPDX 2.3: the files of a release, what was linked into them, and what built them."""
from __future__ import annotations

import hashlib
import json
import re
from datetime import datetime, timezone
from pathlib import Path
from typing import Any

from scripts.packing import sums
from scripts.packing.facts import Contents, Release, ran

PLACE = "share/doc/sdm/sdm.spdx.json"
UNKNOWN = "NOASSERTION"  # what SPDX says where nothing is claimed


def digest(kind: str, path: Path) -> str:
    """A file's checksum of some kind."""
    return hashlib.new(kind, path.read_bytes()).hexdigest()


def file_of(prefix: Path, path: Path) -> dict[str, Any]:
    """A file of the release."""
    name = path.relative_to(prefix).as_posix()
    return {
        "SPDXID": "SPDXRef-File-"
        + re.sub(r"[^A-Za-z0-9.-]", "-", name)
        + "-"
        + hashlib.sha1(name.encode()).hexdigest()[:8],
        "fileName": f"./{name}",
        "checksums": [{"algorithm": kind.upper(), "checksumValue": digest(kind, path)} for kind in ("sha1", "sha256")],
        "licenseConcluded": UNKNOWN,
        "licenseInfoInFiles": [UNKNOWN],
        "copyrightText": UNKNOWN,
    }


def package(name: str, version: str, **more: Any) -> dict[str, Any]:
    """A package, of which no license is claimed."""
    return {
        "SPDXID": "SPDXRef-Package-" + re.sub(r"[^A-Za-z0-9.-]", "-", name),
        "name": name,
        "versionInfo": version,
        "downloadLocation": UNKNOWN,
        "filesAnalyzed": False,
        "licenseConcluded": UNKNOWN,
        "licenseDeclared": UNKNOWN,
        "copyrightText": UNKNOWN,
        **more,
    }


def crates_linked(contents: Contents) -> list[str]:
    """The crates of the toolchain that crates.txt names for what is packed, or for a crate below, and std."""
    below = {}
    for line in (contents.files / "crates.txt").read_text().splitlines():
        if line and not line.startswith("#"):
            name, _, names = line.partition(":")
            below[name.split()[0]] = names.split()
    found, ahead = {"std"}, ["sdm", "sdm_c"]
    while ahead:
        name = ahead.pop()
        if name not in found:
            found.add(name)
            ahead += below.get(name, [])
    return sorted(name for name in found if name not in below)


def tool_of(name: str) -> str:
    """The first line that a tool tells of its version."""
    return ran(name, "--version").decode().splitlines()[0]


def whole_of(release: Release, files: list[dict[str, Any]]) -> dict[str, Any]:
    """The release as a package of its files."""
    digests = "".join(sorted(file["checksums"][0]["checksumValue"] for file in files))
    code = {
        "packageVerificationCodeValue": hashlib.sha1(digests.encode()).hexdigest(),
        "packageVerificationCodeExcludedFiles": [f"./{PLACE}", f"./{sums.NAME}", f"./share/doc/sdm/{sums.NAME}"],
    }
    return package(
        "sdm",
        release.version,
        filesAnalyzed=True,
        sourceInfo=f"commit {release.commit}, sources {release.sources}",
        packageVerificationCode=code,
        licenseInfoFromFiles=[UNKNOWN],
        primaryPackagePurpose="APPLICATION",
    )


def relations(one: dict[str, Any], kind: str, others: list[dict[str, Any]]) -> list[dict[str, str]]:
    """How a part of the bill stands to others."""
    return [
        {"spdxElementId": one["SPDXID"], "relationshipType": kind, "relatedSpdxElement": other["SPDXID"]}
        for other in others
    ]


def bill(release: Release, contents: Contents, prefix: Path) -> dict[str, Any]:
    """The bill of all files below a prefix."""
    files = [file_of(prefix, path) for path in sorted(prefix.rglob("*")) if path.is_file() and not path.is_symlink()]
    whole, kit, compiler = whole_of(release, files), package("rattle-kit", release.kit), package("gcc", tool_of("cc"))
    linked = [package(f"rattle-crate-{name}", release.kit) for name in crates_linked(contents)]
    c_library = package("glibc", "that of the system where it runs")
    created = datetime.fromtimestamp(release.epoch, timezone.utc).strftime("%Y-%m-%dT%H:%M:%SZ")
    document = {
        "spdxVersion": "SPDX-2.3",
        "dataLicense": "CC0-1.0",
        "SPDXID": "SPDXRef-DOCUMENT",
        "name": release.name,
        "documentNamespace": f"https://spdx.org/spdxdocs/{release.name}-{release.commit}",
        "creationInfo": {"created": created, "creators": ["Tool: sdm-scripts-release"]},
        "packages": [whole, kit, *linked, compiler, c_library],
        "files": files,
    }
    document["relationships"] = [
        *relations(document, "DESCRIBES", [whole]),
        *relations(whole, "STATIC_LINK", [*linked, compiler]),
        *relations(whole, "DYNAMIC_LINK", [c_library]),
        *relations(kit, "BUILD_TOOL_OF", [whole]),
        *relations(compiler, "BUILD_TOOL_OF", [whole]),
        *relations(whole, "CONTAINS", files),
    ]
    return document


def write(release: Release, contents: Contents, prefix: Path) -> None:
    """Writes the bill of all files that are below a prefix before it."""
    text = json.dumps(bill(release, contents, prefix), indent=1)
    (prefix / PLACE).write_text(text + "\n")
