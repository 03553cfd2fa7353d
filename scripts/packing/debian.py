"""The Debian packages of a release, by Debian's own tools: dpkg-shlibdeps tells what one depends on, dpkg-gensymbols
and dpkg-gencontrol write what dpkg reads, dpkg-deb packs it. `sdm` has what the archive has, except the wheel;
`python3-sdm` has the Python package."""
from __future__ import annotations

import hashlib
from email.utils import formatdate
from pathlib import Path

from scripts.packing import bill, python, sums, tree
from scripts.packing.facts import Contents, Release, filled, ran

LIBRARIES = "lib/x86_64-linux-gnu"
DOCUMENTS = "share/doc/sdm"


def write_source(release: Release, work: Path) -> None:
    """Writes the files from which Debian's tools read what the packages are."""
    (work / "debian").mkdir(parents=True)
    date = formatdate(release.epoch)
    for name in ("control", "changelog"):
        (work / "debian" / name).write_text(filled(name, author=release.author, version=release.version, date=date))


def write_documents(release: Release, work: Path, usr: Path) -> None:
    """Writes what Debian asks for beside the files, and packs the pages of man."""
    documents = usr / DOCUMENTS
    (documents / "copyright").write_text(filled("copyright", author=release.author))
    packed = ran("gzip", "-9", "--no-name", given=(work / "debian" / "changelog").read_bytes())
    (documents / "changelog.gz").write_bytes(packed)
    for page in sorted((usr / "share" / "man").rglob("*.[0-9]")):
        page.with_name(page.name + ".gz").write_bytes(ran("gzip", "-9", "--no-name", given=page.read_bytes()))
        page.unlink()


def write_dependencies(release: Release, work: Path, root: Path) -> str:
    """Writes into DEBIAN/ what others depend on of the libraries; what they and the program depend on."""
    control, usr = root / "DEBIAN", root / "usr"
    shared = sorted(path for path in (usr / LIBRARIES).glob("lib*.so.*") if not path.is_symlink())
    names = [path.name.partition(".so.") for path in shared]
    (control / "shlibs").write_text(
        "".join(f"{name} {layout} sdm (>= {release.version})\n" for name, _, layout in names)
    )
    (control / "triggers").write_text("activate-noawait ldconfig\n")
    ran(
        "dpkg-gensymbols",
        "-psdm",
        f"-v{release.version}",
        f"-P{root}",
        *(f"-e{each}" for each in shared),
        f"-O{control / 'symbols'}",
        into=work,
    )
    programs = [f"-e{path}" for path in (usr / "bin" / "sdm", *shared)]
    return ran("dpkg-shlibdeps", "-O", *programs, into=work).decode().strip()


def build(release: Release, work: Path, root: Path, package: str, *variables: str) -> bytes:
    """A package of the files below a root, in which the words that control leaves open have the values of variables."""
    control = root / "DEBIAN"
    files = sorted(path for path in (root / "usr").rglob("*") if path.is_file() and not path.is_symlink())
    (control / "md5sums").write_text(
        "".join(
            f"{hashlib.md5(path.read_bytes()).hexdigest()}  {path.relative_to(root).as_posix()}\n" for path in files
        )
    )
    ran(
        "dpkg-gencontrol",
        f"-p{package}",
        f"-P{root}",
        *(f"-V{each}" for each in variables),
        f"-O{control / 'control'}",
        f"-f{work / 'files'}",
        into=work,
        epoch=release.epoch,
    )
    tree.settle(release, root)
    packed = work / f"{package}.deb"
    ran("dpkg-deb", "--build", "--root-owner-group", "-Zxz", "--threads-max=1", root, packed, epoch=release.epoch)
    return packed.read_bytes()


def write(release: Release, contents: Contents, scratch: Path, into: Path) -> list[Path]:
    """Writes the packages into a folder; their paths."""
    work, root, python_root = scratch / "debian-source", scratch / "debian-root", scratch / "python-root"
    write_source(release, work)
    usr = root / "usr"
    tree.write(release, contents, usr, "/usr", LIBRARIES, scratch)
    write_documents(release, work, usr)
    bill.write(release, contents, usr)
    (usr / DOCUMENTS / sums.NAME).write_text(sums.of_files_below(usr))
    (root / "DEBIAN").mkdir()
    whole = into / f"sdm_{release.version}_amd64.deb"
    whole.write_bytes(build(release, work, root, "sdm", write_dependencies(release, work, root)))
    for_python = into / f"python3-sdm_{release.version}_all.deb"
    wheel = python.write_wheel(release, contents, usr / LIBRARIES, scratch, scratch / "wheels")
    python.write_for_debian(wheel, python_root / "usr")
    (python_root / "DEBIAN").mkdir()
    for name in ("postinst", "prerm"):
        (python_root / "DEBIAN" / name).write_text(filled(f"python3-sdm.{name}"))
    for_python.write_bytes(build(release, work, python_root, "python3-sdm"))
    return [whole, for_python]
