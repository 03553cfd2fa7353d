"""The checks, pages, trials and releases of this repository.

    scripts/house check [NAME..] [WORDS]    the checks or groups of checks of these names, all of the gate where none is
    scripts/house write [NAME..]            writes parts of pages anew, all where none is named
    scripts/house show NAME [WORDS]         prints what a page would have, or an answer
    scripts/house try NAME [WORDS]          what stands in no gate
    scripts/house program [WORDS]           the program that is taken; likewise library, and release

Words that begin with `--` are those of a check that takes them, as `--program PATH`. The numbers are minutes of
processor time on the machine of the last measurement; a check without one wasn't measured.
"""
from __future__ import annotations

import os
import sys
import time
import traceback

from scripts.table import CHECKS, GROUPS, OTHERS, SHOWN, TRIES, WRITERS, Part
from sdm.laboratory.piped import end
from sdm.laboratory.program import Fault


def listed() -> str:
    """What there is, in lines."""
    lines = [__doc__.strip()]
    for group, what in GROUPS.items():
        lines += ["", f"checks {what} ({group}):", *(part.line() for part in CHECKS[group])]
    for name, parts in (("write", WRITERS), ("show", SHOWN), ("try", TRIES), ("more", OTHERS)):
        lines += ["", f"{name}:", *(part.line() for part in parts)]
    return "\n".join(lines)


def minutes() -> float:
    """The processor time that this process and those that it waited for took."""
    return sum(os.times()[:4]) / 60


def split(parts: list[Part], words: list[str]) -> tuple[list[str], list[str]]:
    """The names at the front of some words, and the words that follow."""
    names = {part.name for part in parts}
    count = next((number for number, word in enumerate(words) if word not in names), len(words))
    return words[:count], words[count:]


def run(part: Part, words: list[str]) -> int:
    """The exit status of a part; what it can't do is told."""
    try:
        return part.run(words)
    except Fault as why:
        print(f"{part.name}: {why}", file=sys.stderr)
        return 1
    except SystemExit as ended:
        if isinstance(ended.code, str):
            print(ended.code, file=sys.stderr)
        return ended.code if isinstance(ended.code, int) else int(ended.code is not None)
    except BrokenPipeError:
        raise
    except Exception:  # a check that can't be run has failed, and the others go on
        traceback.print_exc()
        return 1


def check(words: list[str]) -> int:
    """Runs the checks that words name, one after the other, and tells how long each took and which failed."""
    every = [part for group in CHECKS.values() for part in group]
    groups = {str(group): [part.name for part in parts] for group, parts in CHECKS.items()}
    count = next((number for number, word in enumerate(words) if word not in groups), len(words))
    names = [name for word in words[:count] for name in groups[word]]
    more, rest = split(every, words[count:])
    names += more
    if rest and not rest[0].startswith("--") and (not names or len(names) > 1):
        print(f"house: there is no check {rest[0]}", file=sys.stderr)
        return 2
    names = names or groups["before"] + groups["after"]
    failed: dict[str, int] = {}
    for part in every:
        if part.name in names:
            before, begun = minutes(), time.monotonic()
            print(f"== {part.name}: {part.what}", flush=True)
            if status := run(part, rest):
                failed[part.name] = status
            took = f"{minutes() - before:.2f} minutes of processor time, {time.monotonic() - begun:.0f} s"
            print(f"== {part.name} {'failed' if part.name in failed else 'passed'}: {took}", flush=True)
    if failed:
        print(f"house: failed: {', '.join(failed)}", flush=True)
    return max(failed.values(), default=0)


def one(parts: list[Part], words: list[str]) -> int:
    """Runs the part that the first word names, with the other words."""
    found = [part for part in parts if words[:1] == [part.name]]
    if not found:
        print(f"house: the names are {', '.join(part.name for part in parts)}", file=sys.stderr)
        return 2
    return run(found[0], words[1:])


def write(words: list[str]) -> int:
    """Writes the parts that words name."""
    names, rest = split(WRITERS, words)
    if rest:
        return one(WRITERS, rest)
    return max(run(part, []) for part in WRITERS if part.name in names or not names and part.name != "bounds")


def main(words: list[str]) -> int:
    match words:
        case ["check", *rest]:
            return check(rest)
        case ["write", *rest]:
            return write(rest)
        case ["show", *rest]:
            return one(SHOWN, rest)
        case ["try", *rest]:
            return one(TRIES, rest)
        case [name, *_] if name in {part.name for part in OTHERS}:
            return one(OTHERS, words)
    print(listed())
    return int(words not in ([], ["--help"]))


if __name__ == "__main__":
    end(lambda: main(sys.argv[1:]))
