"""Makes the journeys of vectors/: inputs by vectors/maker, what they lead to by tools/model.

    vectors/make          writes them, with an index for each group, and says which files came, changed or went; fails
                          where a group isn't, to the byte, the one of vectors/DIGESTS
    vectors/make missing  does so only where those of vectors/DIGESTS don't lie here
    vectors/make digests  writes them and vectors/DIGESTS
"""

import hashlib
import shutil
import sys
from itertools import chain
from pathlib import Path

VECTORS = Path(__file__).resolve().parents[1]
DIGESTS = VECTORS / "DIGESTS"  # a line for each group: its name, its journeys, its files, and their digest

from maker import (calculated, ceiling, certificates, commands, curves, display, drive, records, refusals,
                   targets, ten_bands, upgrades, version2)
from sdm_evidence.model.words import collect

GROUPS = {
    # group: what makes its vectors, one after the other
    "ceiling": [ceiling.vectors], "targets": [targets.vectors], "commands": [commands.commands],
    "times": [commands.all_times], "release": [commands.all_release], "calculated": [calculated.vectors],
    "decelerations": [curves.decelerations, version2.decelerations],
    "curves": [curves.curves, version2.curves, ten_bands.curves], "data": [refusals.data, version2.data, ten_bands.data],
    "openings": [refusals.openings, version2.openings, ten_bands.openings],
    "records": [records.records, calculated.records], "texts": [records.texts],
    "display": [display.vectors], "drive": [drive.vectors],
    "certify": [certificates.certificates], "check": [certificates.checks], "flat": [records.flat], "trial": [records.trial], "upgrade": [upgrades.vectors],
    "words": [records.words],
}


def files_of_vector(folder, words, data):
    """The files of a journey, by their paths below vectors/."""
    rows, err, code = collect(words, data)
    files = {"input": data, "rows": rows.encode(), "err": err.encode(), "code": f"{code}\n".encode()}
    if words != ["run"]:
        files["args"] = "".join(word + "\n" for word in words).encode()
    return {f"{folder}/{name}": content for name, content in files.items()}


def all_files():
    """Every file of every group, by its path below vectors/."""
    files = {}
    for group, makers in GROUPS.items():
        index = []
        for name, shows, *rest in chain.from_iterable(make() for make in makers):
            words, made = rest if len(rest) == 2 else (["run"], rest[0])
            assert f"{group}/{name}/input" not in files, name
            files |= files_of_vector(f"{group}/{name}", words, made if isinstance(made, bytes) else made.input())
            index.append(f"{name}\t{shows}\n")
        files[f"{group}/index"] = "".join(index).encode()
    return files


def files_here():
    """Every file that lies in a folder of vectors/, by its path below vectors/."""
    folders = [folder for folder in VECTORS.iterdir() if folder.is_dir() and folder.name != "maker"]
    strange = [folder.name for folder in folders if folder.name not in GROUPS]
    if strange:
        raise SystemExit(f"vectors/make: there is no group {', '.join(strange)}; remove what lies there from vectors/.")
    return {str(path.relative_to(VECTORS)): path.read_bytes() for folder in folders for path in folder.rglob("*") if path.is_file()}


def digest_of(group, files):
    """The line of a group. Its digest is what this prints: find GROUP -type f | LC_ALL=C sort | xargs sha256sum | sha256sum"""
    names = sorted(name for name in files if name.startswith(f"{group}/"))
    lines = "".join(f"{hashlib.sha256(files[name]).hexdigest()}  {name}\n" for name in names)
    journeys = sum(name.endswith("/input") for name in names)
    return f"{group} {journeys} {len(names)} {hashlib.sha256(lines.encode()).hexdigest()}\n"


def digests_of(files):
    """The lines of all groups."""
    return [digest_of(group, files) for group in sorted(GROUPS)]


def tell_changes(files, here):
    """Says which of the files that lie here come, change or go."""
    for name in sorted(name for name in files | here if files.get(name) != here.get(name)):
        print(("new: " if name not in here else "gone: " if name not in files else "changed: ") + name)


def write(files):
    """Writes all files, and removes what lies here of the groups."""
    for group in GROUPS:
        shutil.rmtree(VECTORS / group, ignore_errors=True)
    for name, data in files.items():
        (VECTORS / name).parent.mkdir(parents=True, exist_ok=True)
        (VECTORS / name).write_bytes(data)


def main(words):
    if words not in ([], ["missing"], ["digests"]):
        print(__doc__.strip(), file=sys.stderr)
        return 2
    here, due = files_here(), DIGESTS.read_text().splitlines(keepends=True)
    if words == ["missing"] and digests_of(here) == due:
        return 0
    files = all_files()
    made = digests_of(files)
    if here:
        tell_changes(files, here)
    write(files)
    if words == ["digests"]:
        DIGESTS.write_text("".join(made))
        due = made
    for line in sorted({*made} ^ {*due}):
        print(f"{'made' if line in made else 'vectors/DIGESTS has'}: {line}", end="")
    folders = sum(name.endswith("/input") for name in files)
    same = len({*made} & {*due})
    print(f"vectors: {folders} journeys, {len(files)} files, {sum(map(len, files.values()))} bytes; {same} of {len(made)} groups have their digest")
    return int(made != due)


if __name__ == "__main__":
    sys.exit(main(sys.argv[1:]))
