"""Texts of certificates that tell, from a seed: what `certify` writes of the journey of the seed, as it is or spoilt.

    tools/certified SEED    the text of a seed
"""
import random
import sys
from random import Random

from sdm_evidence.makers.journeys import make
from sdm_evidence.model.words import collect

WORDS = ["map", "uppers", "seg", "claim", "mark"]


def a_certify(seed: int) -> tuple[list[str], bytes]:
    """The words of `certify` and the input of the seed's journey, whatever its own words."""
    count = random.Random(f"certify {seed}").choice([1, 2, 5, 1_000])
    return ["certify", str(count)], make(seed)[-1]


def a_number(rng: Random, text: str) -> str:
    """Another number in place of one: near it, or at an end."""
    if not text.lstrip("-").isdigit():
        return rng.choice(["", "0", "-1"])
    number = int(text)
    return str(rng.choice([number - 1, number + 1, number + rng.randint(-(10**9), 10**9), -number, 0, 10 * number]))


def spoil_number(rng: Random, lines: list[str]) -> None:
    at = rng.randrange(len(lines))
    word, *fields = lines[at].split(",")
    if fields:
        k = rng.randrange(len(fields))
        fields[k] = a_number(rng, fields[k])
        lines[at] = ",".join([word, *fields])


def spoil_line(rng: Random, lines: list[str]) -> None:
    at, how = rng.randrange(len(lines)), rng.randrange(5)
    if how == 0:
        del lines[at]
    elif how == 1:
        lines.insert(at, lines[rng.randrange(len(lines))])
    elif how == 2:
        lines[at] = ",".join([rng.choice(WORDS), *lines[at].split(",")[1:]])
    elif how == 3:
        lines[at] += rng.choice([",", ",0", " ", "\r", "\n"])
    else:
        del lines[at + 1 :]


def spoil(rng: Random, text: str) -> str:
    """A text with one or two numbers or lines spoilt."""
    lines = text.split("\n")[:-1]
    for _ in range(rng.choice([1, 1, 2])):
        if lines:
            (spoil_number if rng.random() < 0.8 else spoil_line)(rng, lines)
    return "\n".join(lines) + rng.choice(["\n", "\n", "\n", ""])


def a_check(seed: int) -> tuple[list[str], bytes]:
    """The words of `check` and a text: a certificate of the seed's journey, two of three times spoilt."""
    rng = random.Random(f"check {seed}")
    text = collect(*a_certify(seed))[0]
    return ["check"], (spoil(rng, text) if rng.random() < 0.67 else text).encode()


def main(words: list[str]) -> int:
    """Writes the text of a seed."""
    if len(words) != 1:
        raise SystemExit(__doc__)
    sys.stdout.buffer.write(a_check(int(words[0]))[-1])
    return 0
