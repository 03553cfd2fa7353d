"""All files of a release below a prefix, with their modes and times."""
from __future__ import annotations

import os
import posixpath
import shutil
from concurrent.futures import ThreadPoolExecutor
from pathlib import Path

from scripts.packing import library, web
from scripts.packing.facts import Contents, Release, filled
from scripts.packing.places import place_of, place_or_none
from sdm.laboratory.program import sum_of


def packed_files(files: Path) -> list[str]:
    """The files of a commit that are packed, by their paths in it."""
    names = sorted(path.relative_to(files).as_posix() for path in files.rglob("*") if path.is_file())
    return [name for name in names if place_or_none(name) is not None]


def place_file(release: Release, contents: Contents, name: str) -> None:
    """Copies a file of the commit to its place; a page becomes HTML."""
    to = contents.placed / place_of(name)
    to.parent.mkdir(parents=True, exist_ok=True)
    if name.endswith(".md"):
        to.write_bytes(web.page(release, name, (contents.files / name).read_bytes()))
    else:
        shutil.copyfile(contents.files / name, to)


def place_files(release: Release, contents: Contents) -> None:
    """Puts the program and the files of the commit to their places, some at a time, since pandoc takes a while for each
    page; and what says from what they were built."""
    with ThreadPoolExecutor() as threads:
        for _ in threads.map(lambda name: place_file(release, contents, name), packed_files(contents.files)):
            pass
    (contents.placed / "bin").mkdir()
    shutil.copyfile(contents.program, contents.placed / "bin" / "sdm")
    (contents.placed / "share" / "doc" / "sdm" / "BUILD").write_text(build_record(release, contents))
    web.check_links(contents.placed)


def write_libraries(
    release: Release,
    contents: Contents,
    prefix: Path,
    root: str,
    libraries: str,
    scratch: Path,
    tools: library.Tools = library.OWN,
    headers: str = "include",
) -> None:
    """Writes the libraries, with what pkg-config and CMake read of them. The root is pkg-config's name of the
    prefix, below which the headers are in a folder."""
    into = prefix / libraries
    for folder in (into / "pkgconfig", into / "cmake" / "sdm"):
        folder.mkdir(parents=True)
    made = library.of_supervisor(release, contents)
    library.make_static(made, contents, scratch, into, tools)
    library.make_shared(made, contents, scratch, into, tools)
    (into / "pkgconfig" / "sdm.pc").write_text(
        filled("sdm.pc", prefix=root, headers=headers, libraries=libraries, version=release.version)
    )
    (into / "cmake" / "sdm" / "sdm-config.cmake").write_text(
        filled("sdm-config.cmake", to_headers=posixpath.relpath(headers, libraries), shared_name=release.shared_name)
    )
    (into / "cmake" / "sdm" / "sdm-config-version.cmake").write_text(
        filled("sdm-config-version.cmake", version=release.version)
    )


def write_commands(
    release: Release, contents: Contents, archive: Path, prefix: Path, root: str, libraries: str, scratch: Path
) -> None:
    """Writes the libraries of every command as a call, with what pkg-config reads; the other libraries stand there."""
    into, made = prefix / libraries, library.of_commands(contents, archive)
    library.make_static(made, contents, scratch, into)
    library.make_shared(made, contents, scratch, into)
    (into / "pkgconfig" / "sdm-calls.pc").write_text(
        filled("sdm-calls.pc", prefix=root, headers="include", libraries=libraries, version=release.version)
    )


def build_record(release: Release, contents: Contents) -> str:
    """What a release was built from, in lines."""
    return (
        f"version {release.version}\ncommit {release.commit}\nsources {release.sources}\nkit {release.kit}\n"
        f"program {sum_of(contents.program)}\nlibrary {sum_of(contents.library)}\n"
        + (f"calls-library {sum_of(contents.calls)}\n" if contents.calls else "")
    )


def write(release: Release, contents: Contents, prefix: Path, root: str, libraries: str, scratch: Path) -> None:
    """Writes the files that each release has below a new prefix; the libraries go to a folder below it."""
    shutil.copytree(contents.placed, prefix)
    write_libraries(release, contents, prefix, root, libraries, scratch)
    if contents.calls is not None:
        write_commands(release, contents, contents.calls, prefix, root, libraries, scratch)


def is_run(path: Path) -> bool:
    """Whether a file is a program."""
    with path.open("rb") as file:
        return file.read(4).startswith((b"#!", b"\x7fELF")) and ".so" not in path.suffixes


def settle(release: Release, top: Path) -> None:
    """Gives each file below a folder the mode and the time that it has in every release of a commit."""
    for path in [top, *top.rglob("*")]:
        if not path.is_symlink():
            path.chmod(0o755 if path.is_dir() or path.parent.name == "bin" or is_run(path) else 0o644)
        os.utime(path, (release.epoch, release.epoch), follow_symlinks=False)
