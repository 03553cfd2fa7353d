"""upgrade/: data parts of either version, and the table of version 2 that they become."""
from sdm_evidence.model.data import REFUSED
from sdm_evidence.makers.toml_text import Raw, toml

from .plain import KM, limit, plain, stop
from .refusals import changed, full
from .version2 import full_2

UPGRADE = ["upgrade"]
TRACK, TRAIN = ("track",), ("train",)


def documents():
    """Data parts that are accepted."""
    yield "plain", "the plain train: `delayed` and `release` stand, though they were absent", plain()
    yield "all-keys", "every key of version 1, gradients tenfold", full()
    yield "all-keys-to-a-limit", "the same with an authority to a limit", full(limit(5 * KM, 60))
    yield "all-keys-of-version-2", "every key of version 2 as it was", full_2()
    yield "gradients", "gradients at the ends of their range", plain(track={"gradient": [
        {"start": start, "grad": grad} for start, grad in enumerate((80, -80, 0, 1, -1))]})
    yield "gradients-of-version-2", "gradients in tenths as they were", plain(track={"gradient": [
        {"start": start, "grad": grad} for start, grad in enumerate((800, -800, 0, 1, -1))]}, version=2)
    yield "mass-of-0", "a rotating mass of 0 stands", plain({"rotating_mass": 0})
    yield "mass-not-known", "one that isn't known doesn't", changed(plain(), [((*TRAIN, "rotating_mass"), REFUSED)])
    yield "reduced-in-one-band", "`emergency_reduced` stands in the band that gives it, and in no other", plain(
        bands=[{"upper": 60, "emergency_reduced": 100}, {}], version=2)
    empty = {"gradient": [], "adhesion": [], "no_special": []}
    yield "empty-lists", "empty lists are left out", plain(track=empty, version=2)
    yield "not-delayed", "a `delayed` of false stands", plain(track={"speed": [
        {"start": 0, "speed": 160, "delayed": False}, {"start": 9, "speed": 100, "delayed": True}]})
    yield "release", "a release speed stands", plain(authority=stop(5 * KM, 0, 30))
    yield "release-of-0", "a release speed of 0 stands", plain(authority=stop(5 * KM, 0, 0))
    yield "slopes-too-weak", "slopes aren't tested: `run` refuses these", plain(bands=[{"emergency": 4}])
    yield "authority-beyond-the-track", "nor is where the authority ends", plain(authority=stop(99 * KM, -1))


def texts():
    """Other spellings, and texts that are refused."""
    text = toml(plain())
    yield "inline", "inline tables, another order of keys, other spellings of numbers", inline(text)
    yield "comment", "`%%` in a comment and in a text is part of the document", "# %%\n" + text
    yield "byte-order-mark", "a byte order mark at the start is passed over", "\ufeff" + text
    yield "crlf", "lines that end with CR and LF", text.replace("\n", "\r\n")
    yield "dividing-line", "a dividing line is no TOML", text + "%%\n"
    yield "dividing-line-within-a-text", "nor is it looked for: within a text it is a line of a value", \
        'more = """\n%%\n"""\n' + text
    yield "empty", "an input of no bytes is a document without keys", ""
    yield "not-toml", "no document", "version = \n"


def inline(text):
    """The plain data part in one table of tables, and its numbers in other forms."""
    return ("authority = {svl = 0x7A120, eoa = 5_00000, kind = 'end'}\n"
            "track = {length = 1_000_000, speed = [{speed = +160, start = 0}], gradient = [{grad = -1_2, start = 0}]"
            "}\n"
            + text.partition("[track]")[0])


def refused():
    """Rules that are broken: the same order as `run` has."""
    for name, shows, document in [
        ("value", "a number out of its range", changed(plain(), [((*TRAIN, "length"), 0)])),
        ("grad-above", "81 per mille", plain(track={"gradient": [{"start": 0, "grad": 81}]})),
        ("missing", "a key is missing", changed(full_2(), [((*TRACK, "no_special", 0, "end"), REFUSED)])),
        ("unknown-key", "a key of version 2 in version 1", changed(full_2(), [(("version",), 1)])),
        ("version", "a version that isn't known", changed(plain(), [(("version",), 3)])),
        ("wrong-kind", "a float", changed(plain(), [((*TRACK, "length"), Raw("1e6"))])),
    ]:
        yield f"refused-{name}", shows, toml(document)


def vectors():
    for name, shows, document in documents():
        yield name, shows, UPGRADE, toml(document).encode()
    for name, shows, text in [*texts(), *refused()]:
        yield name, shows, UPGRADE, text.encode()
    yield "not-utf-8", "bytes that are no text", UPGRADE, b"# \xff\n" + toml(plain()).encode()
