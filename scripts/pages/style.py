"""Checks the style of the pages: words that have a plainer one, sentences and paragraphs that are too long, and
versions and dates on a page that says what is. The words of code and of headings aren't read, sentences of tables and
captions aren't counted, and what scripts write isn't read at all. The pages by hand have at most so many words in all,
and README so many. No file has a mark of a conflict.

    scripts/house check style
    scripts/house show words     the words by hand of each page, and of all
"""
from __future__ import annotations

import re
import subprocess
from pathlib import Path

from scripts.pages.links import CODE, FENCE, pages
from scripts.pages.part import told
from scripts.pages.specs import ROOT

MOST_WORDS = 40  # in a sentence, or in a part of it up to a semicolon
MOST_IN_PARAGRAPH = 90
MOST_IN_README = 700
MOST_BY_HAND = 56_500  # as `wc -w` counts, in all pages by hand; the aim is 52,000
SKIPPED = {"vectors/MUTANTS.md"}  # written by a script
# Pages that aren't counted: runs and vectors, the log of changes, and what scripts write.
UNCOUNTED_PAGES = re.compile(
    r"(?:examples|vectors)/|CHANGELOG\.md$|docs/(?:DEFINITIONS|BELIEVED|TRACES|WRONG-DEFINITIONS)\.md$"
)
WRITTEN = re.compile(
    r"^<!-- The \w+ from here on .*?(?=^<!-- The \w+ ends? here|\Z)", re.M | re.S
)  # a part that a script writes
PLAINER = {  # a pattern, and what to write in its place
    r"(?:(?:is|are|was|were|be) )?told|tells?": "says, gives, reports",
    r"want of|for want": "refused memory, runs out of memory, lack",
    r"wanting": "is missing",
    r"(?:is|a) free answer|answer is free": "is not excluded",
    r"of (?:one|his|her|its|their|anybody)(?:'s)? own making": "generated",
    r"in (?:the )?place of": "instead of",
    r"as (?:many|much|long) as one likes": "any number",
    r"anew": "again",
    r"(?:comes?|came) to (?!stand)": "reaches, amounts to",
    r"(?<!by )hand(?:s|ed)? (?:in|on)": "pass, give",
    r"gives? back": "frees, returns",
    r"(?:is|are) said of": "holds for",
    r"(?:ends?|brakes?|runs?|stands?|goes) so(?=[.,;)])": "in this way",
    r"answers? (?:a|the|its) (?:status|fault|values?)": "returns",
    r"(?:as|than) (?:is|are) due": "as expected, the expected",
    r"he|his|him": "the driver, the builder, they",
    r"who(?:ever)? (?:calls|runs|relies|looks|links|changes|works|asks|hands)": "a caller, a user",
}
PLAINER_HERE = {  # the same, of the pages that are settled
    r"but for": "except, unless",
    r"made (?:data|journeys?|trains?|runs?|readings?|drives?|rides?|figures|up)": "generated",
}
# Where these words stand for a place, a page has them; at the beginning of a sentence they stand for a condition.
CONDITION = re.compile(r"(?:^|(?<=[.;:] )|(?<=\| ))(?:- |\d\. )?Where (?!(?:to|it is|they are)\b)[^|.;]*,")
# Pages that are read again by those who write them; their paragraphs and conditions aren't counted yet.
UNREAD_YET = re.compile(
    r"(?:examples|vectors|tools|python|javascript|c)/"
    r"|docs/(?:EDITS|LABORATORY|LIBRARY|PROCESSORS|PYTHON|RELEASES|TRACES|WRONG-DEFINITIONS)\.md$|CHANGELOG\.md$"
)
WORDS_OF_CODE = "want of|but for"
FOLDERS_OF_CODE = ["scripts", "python", "tools", "bench", "c", "javascript"]
DATED = {"CHANGELOG.md", "README.md", "bench/README.md", "docs/RELEASES.md"}  # may name a version or a date
DATE = re.compile(r"\b0\.\d+\.\d+\b|\b20\d\d-\d\d-\d\d\b")
SENTENCE = re.compile(r"(?<=[.!?;])\s+")
UNREAD = re.compile(r"^(?:    |#|<!--)")
UNCOUNTED = re.compile(r"^(?:\||!\[)")  # a line of a table, a picture with its caption
TARGET = re.compile(r"\]\([^)]*\)")


def lines_of(page: Path) -> list[tuple[int, str]]:
    """The lines of a page that are read with their numbers, each piece of code as one word."""
    text = page.read_text()
    for unread in (WRITTEN, FENCE):
        text = unread.sub(lambda part: re.sub(r"[^\n]", "", part.group()), text)
    read = enumerate(text.splitlines(), 1)
    return [
        (number, TARGET.sub("]", CODE.sub("code", line)).replace("*", ""))
        for number, line in read
        if line.strip() and not UNREAD.match(line)
    ]


def words_of(line: str, plainer: dict[str, str]) -> list[str]:
    """The words of a line that have a plainer one."""
    return [
        f"{found.group()!r}: write {plain}"
        for word, plain in plainer.items()
        for found in re.finditer(rf"\b(?:{word})\b", line, re.I)
    ]


def faults_of(line: str) -> list[str]:
    """What is wrong with a line."""
    words = words_of(line, PLAINER)
    sentences = [] if UNCOUNTED.match(line) else SENTENCE.split(line)
    counts = [(len(sentence.split()), sentence) for sentence in sentences]
    return words + [f"{count} words in a sentence: {sentence[:60]}" for count, sentence in counts if count > MOST_WORDS]


def settled_faults(line: str) -> list[str]:
    """What is wrong with a line as a paragraph, and by its words."""
    count = 0 if UNCOUNTED.match(line) else len(line.split())
    long = [f"{count} words in a paragraph: {line[:60]}"] if count > MOST_IN_PARAGRAPH else []
    return (
        words_of(line, PLAINER_HERE)
        + long
        + [f"{found.group()[:40]!r}: write if" for found in CONDITION.finditer(line)]
    )


def by_hand(page: Path) -> int:
    """The words of a page that a script doesn't write, as `wc -w` counts them."""
    return len(WRITTEN.sub("", page.read_text()).split())


def counts() -> dict[str, int]:
    """The words by hand of each page that is counted."""
    names = {str(page.relative_to(ROOT)): page for page in pages()}
    return {name: by_hand(page) for name, page in names.items() if not UNCOUNTED_PAGES.match(name)}


def count_faults() -> list[str]:
    """Whether the pages have more words by hand than they may."""
    found = counts()
    faults = []
    if found.get("README.md", 0) > MOST_IN_README:
        faults.append(f"README.md: {found['README.md']} words, and not at most {MOST_IN_README}")
    if sum(found.values()) > MOST_BY_HAND:
        faults.append(f"{sum(found.values())} words by hand in all pages, and not at most {MOST_BY_HAND}")
    return faults


def readerless(page: Path) -> bool:
    """Whether the first line of a page below its title names no reader."""
    first = next((line for line in page.read_text().splitlines() if line and not line.startswith(("#", "!"))), "")
    return not first.startswith("For ")


def lines_with(pattern: str, *paths: str) -> list[str]:
    """The lines of files of the repository that a pattern matches, as git prints them."""
    words = ["git", "-C", str(ROOT), "grep", "--untracked", "-nIwE", pattern, "--", *paths]
    return subprocess.run(words, capture_output=True, text=True, check=False).stdout.splitlines()


def conflicts() -> list[str]:
    """The marks of conflicts in files of the repository."""
    return [f"{line}: a mark of a conflict" for line in lines_with("^(<{7}|>{7})( .*|$)")]


def code_faults() -> list[str]:
    """Words of code and its comments that have a plainer one. Those of crates aren't read: a source that changes is
    proved again."""
    found = lines_with(WORDS_OF_CODE, *FOLDERS_OF_CODE, ":!*.md", ":!scripts/pages/style.py", ":!scripts/tests/")
    return [f"{line[:100]}: write except, unless, refused memory" for line in found]


def dates_of(page: Path) -> list[tuple[int, str]]:
    """The versions and dates that a page names, with their lines."""
    lines = enumerate(page.read_text().splitlines(), 1)
    return [
        (number, f"{found.group()!r}: only {', '.join(sorted(DATED))} name it")
        for number, line in lines
        for found in DATE.finditer(line)
    ]


def main(words: list[str]) -> int:
    if words == ["words"]:
        found = counts()
        for name, count in found.items():
            print(f"{count:7,}  {name}")
        print(f"{sum(found.values()):7,}  in all")
        return 0
    names = {page: str(page.relative_to(ROOT)) for page in pages()}
    read = [page for page in names if names[page] not in SKIPPED]
    lines = [(page, number, line) for page in read for number, line in lines_of(page)]
    found_in = [(page, number, fault) for page, number, line in lines for fault in faults_of(line)]
    settled = [(page, number, line) for page, number, line in lines if not UNREAD_YET.match(names[page])]
    found_in += [(page, number, fault) for page, number, line in settled for fault in settled_faults(line)]
    found_in += [(page, *dated) for page in read if names[page] not in DATED for dated in dates_of(page)]
    faults = [f"{names[page]}:{number}: {fault}" for page, number, fault in found_in]
    faults += [
        f"{names[page]}: its first line names no reader"
        for page in read
        if names[page] != "README.md" and not UNREAD_YET.match(names[page]) and readerless(page)
    ]
    return told("style", len(lines), [*faults, *count_faults(), *conflicts(), *code_faults()])
