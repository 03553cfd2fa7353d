"""Tries the pages of tools/report in a browser: a comparison, a journey, and one of 100,000 records. It is no part of
the gate.

The page must load without a line in the browser's console. Where the mouse, a key or a button puts the cursor, the page
must show the program's row and why's causes. The wheel must zoom, and `all` show the whole again. Pictures of the pages
are kept where --keep says."""
from __future__ import annotations

import argparse
import math
import sys
import tempfile
import time
from collections.abc import Iterator
from pathlib import Path

from selenium import webdriver
from selenium.webdriver.common.action_chains import ActionChains
from selenium.webdriver.common.actions.wheel_input import ScrollOrigin
from selenium.webdriver.common.by import By
from selenium.webdriver.common.keys import Keys
from selenium.webdriver.remote.webelement import WebElement

from sdm.__main__ import run as command
from sdm.laboratory.program import Fault, add_program, built, run
from sdm.laboratory.walk import at_row
from sdm.reporting.journey import cause_lines

ROOT = Path(__file__).resolve().parents[2]
EXAMPLES = ROOT / "examples"
RECORDS = 100_000
PATIENCE = 60.0  # s, for a page to be drawn
SPOTS = 15  # to which the mouse goes
COMPARED = "10 rows differ"  # what docs/LABORATORY.md says of examples/interventions
RUNS = 10  # of differences there


def long_input() -> str:
    """An input of 100,000 records over 95 km: authorities that move on, a speed that rises and falls, and readings that
    are a little off."""
    data = (EXAMPLES / "realistic" / "input").read_text().split("[track]")[0]
    lines = [data + "[track]\nlength = 10000000\n"]
    lines += [f"\n[[track.gradient]]\nstart = {240_000 * i}\ngrad = {(0, -5, 3, -10, 8)[i % 5]}\n" for i in range(40)]
    speeds = (160, 120, 140, 100, 160)
    lines += [f"\n[[track.speed]]\nstart = {320_000 * i}\nspeed = {speeds[i % 5]}\n" for i in range(30)]
    lines += ['\n[authority]\nkind = "end"\neoa = 600000\nsvl = 605000\n%%\n']
    mm, eoa, seed = 0.0, 600_000, 7
    for i in range(RECORDS):
        seed = (25_173 * seed + 13_849) % 65_536
        speed = 9_500 * (1 + 0.5 * math.sin(i / RECORDS * 80 * math.pi)) + seed % 41 - 20
        mm += speed / 10
        if mm / 10 > eoa - 200_000 and eoa < 9_900_000:
            eoa += 150_000
            lines.append(f"end,{eoa},{eoa + 5_000},0\n")
            continue
        est, doubt = round(mm) + seed % 7, 2_000 + round(mm) % 1_000_000 // 100
        lines.append(f"read,{i},{est},{est - doubt},{est + doubt},{round(speed)},{seed % 31 - 15},500\n")
    return "".join(lines)


class Tried(Exception):
    """What a page does otherwise than it must."""


class Page:
    """A page in the browser, with the input and the rows that it must show."""

    def __init__(self, browser: webdriver.Chrome, path: Path, source: bytes, rows: list[str]) -> None:
        self.browser, self.source, self.rows = browser, source, rows
        begun = time.monotonic()
        browser.get(path.as_uri())
        while not browser.execute_script("return document.body.dataset.drawn"):
            if time.monotonic() - begun > PATIENCE:
                raise Tried(f"not drawn within {PATIENCE:g} s: {browser.get_log('browser')}")
            time.sleep(0.02)
        self.seconds = time.monotonic() - begun

    def one(self, where: str) -> WebElement:
        return self.browser.find_element(By.CSS_SELECTOR, where)

    def text(self, name: str) -> str:
        """The text of an element, as it stands in the page."""
        return str(self.browser.execute_script("return document.getElementById(arguments[0]).textContent", name))

    def number(self) -> int:
        """The number of the row at the cursor, from 1, whose row must be the program's."""
        number = int(str(self.one("#number").get_property("value")))
        if self.text("row") != self.rows[number - 1]:
            raise Tried(f"row {number} is shown as {self.text('row')}, and is {self.rows[number - 1]}")
        return number

    def move(self, where: str, part: float) -> int:
        """Moves the mouse to a part of an element's width: the number of the row that is shown then."""
        into = self.one(where)
        across = round((part - 0.5) * into.size["width"])
        ActionChains(self.browser, duration=0).move_to_element_with_offset(into, across, 12).perform()
        return self.number()

    def ticks(self) -> list[str]:
        """The places at the axis."""
        found = self.browser.find_elements(By.CSS_SELECTOR, "#plot .axis:nth-of-type(2) .tick text")
        return [each.text for each in found]

    def settled(self) -> list[str]:
        """The places at the axis once a zoom is drawn."""
        time.sleep(0.4)
        return self.ticks()


def try_cursor(page: Page) -> None:
    """The mouse over the plot and the strips, keys, buttons and the field."""
    numbers = {page.move("#plot svg", 0.12 + 0.8 * i / SPOTS) for i in range(SPOTS)}
    if len(numbers) < min(SPOTS, len(page.rows)) // 2:
        raise Tried(f"the mouse shows the rows {sorted(numbers)} alone")
    late, soon = page.move("#strips svg", 0.9), page.move("#strips svg", 0.15)
    if not soon < late:
        raise Tried(f"over the strips row {soon} comes after row {late}")
    field = page.one("#number")
    middle = len(page.rows) // 2
    field.send_keys(Keys.CONTROL, "a")
    field.send_keys(str(middle), Keys.ENTER)
    if page.number() != middle:
        raise Tried(f"the field shows row {page.number()} for {middle}")
    page.one("#after").click()
    page.one("h1").click()
    ActionChains(page.browser).send_keys(Keys.ARROW_RIGHT, Keys.ARROW_RIGHT, Keys.ARROW_LEFT).perform()
    if page.number() != middle + 2:
        raise Tried(f"keys and button show row {page.number()} for {middle + 2}")


def try_causes(page: Page) -> None:
    """The causes of some rows, which must be those of the model at that row."""
    count = len(page.rows)
    for number in {1, 2, count // 2, count} if count < RECORDS // 2 else {1, 200}:
        field = page.one("#number")
        field.send_keys(Keys.CONTROL, "a")
        field.send_keys(str(number), Keys.ENTER)
        _, _, cycle, before = at_row(page.source, page.number())
        if page.text("causes") != "\n".join(cause_lines(cycle, before)):
            raise Tried(f"row {number} has other causes:\n{page.text('causes')}")


def try_zoom(page: Page) -> None:
    """The wheel and the buttons, and back to the whole."""
    page.one("#all").click()
    whole = page.settled()
    origin = ScrollOrigin.from_element(page.one("#plot svg"))
    ActionChains(page.browser).scroll_from_origin(origin, 0, -600).perform()
    nearer = page.settled()
    page.one("#nearer").click()
    nearest = page.settled()
    if not whole or len({tuple(whole), tuple(nearer), tuple(nearest)}) != 3:
        raise Tried(f"zoomed from {whole} to {nearer} and {nearest}")
    page.one("#all").click()
    if page.settled() != whole:
        raise Tried(f"`all` shows {page.ticks()} for {whole}")


def try_comparison(page: Page) -> None:
    """The differences of examples/interventions."""
    if COMPARED not in page.text("compared"):
        raise Tried(f"the comparison says {page.text('compared')}")
    figures = page.browser.find_elements(By.CSS_SELECTOR, "#runs figure svg .ring")
    if len(figures) != RUNS:
        raise Tried(f"{len(figures)} pictures of runs for {RUNS}")
    page.one("#number").send_keys(Keys.CONTROL, "a")
    page.one("#number").send_keys("1", Keys.ENTER)
    page.one("#difference-after").click()
    cells = [each.text for each in page.browser.find_elements(By.CSS_SELECTOR, "#columns .beyond td")]
    if (page.number(), cells[:4]) != (5, ["tco", "0", "1", "differs"]):
        raise Tried(f"the first difference is shown as row {page.number()}, {cells}")


def browsers() -> Iterator[webdriver.Chrome]:
    """A browser, which is ended in the end."""
    options = webdriver.ChromeOptions()
    for word in (
        "--headless=new",
        "--no-sandbox",
        "--disable-gpu",
        "--disable-dev-shm-usage",
        "--window-size=1500,1000",
    ):
        options.add_argument(word)
    options.set_capability("goog:loggingPrefs", {"browser": "ALL"})
    browser = webdriver.Chrome(options=options)
    try:
        yield browser
    finally:
        browser.quit()


def try_page(browser: webdriver.Chrome, program: Path, source: Path, out: Path, words: list[str]) -> str:
    """Makes a page and tries it: what is told of it."""
    begun = time.monotonic()
    if command("report", [str(source), str(out), "--program", str(program), *words]) != 0:
        raise Tried("no page was made")
    made = time.monotonic() - begun
    page = Page(browser, out, source.read_bytes(), run(program, ["run"], source.read_bytes()).rows.splitlines())
    for tried in [try_cursor, try_causes, try_zoom] + [try_comparison] * bool(words):
        tried(page)
    browser.save_screenshot(str(out.with_suffix(".png")))
    if log := browser.get_log("browser"):
        raise Tried(f"the console has {log}")
    return (
        f"{len(page.rows):,} rows: made in {made:.1f} s, {out.stat().st_size:,} bytes, drawn within "
        f"{page.seconds:.1f} s"
    )


def try_all(program: Path, folder: Path) -> bool:
    """Tries all pages, in a folder; whether all are as they must be."""
    files, long = EXAMPLES / "interventions", folder / "long.input"
    long.write_text(long_input())
    compared = ["--recording", str(files / "recording.csv"), "--mapping", str(files / "mapping.toml"), "--ds", "5"]
    pages: dict[str, tuple[Path, list[str]]] = {
        "comparison": (files / "input", compared),
        "journey": (EXAMPLES / "recording" / "input", []),
        "long": (long, []),
    }
    failed = 0
    for browser in browsers():
        for name, (source, words) in pages.items():
            try:
                print(f"{name}: {try_page(browser, program, source, folder / f'{name}.html', words)}", flush=True)
            except Tried as why:
                failed += 1
                print(f"{name}: {why}", flush=True)
    return not failed


def main(args: list[str]) -> int:
    parser = argparse.ArgumentParser(prog="scripts/house try report", description=__doc__.split("\n\n")[0])
    parser.add_argument("--keep", type=Path, metavar="FOLDER", help="where pages and pictures of them are kept")
    add_program(parser)
    words = parser.parse_args(args)
    try:
        program = built(words.program)
    except Fault as why:
        print(f"try-report: {why}", file=sys.stderr)
        return 2
    with tempfile.TemporaryDirectory() as scratch:
        folder = words.keep or Path(scratch)
        folder.mkdir(parents=True, exist_ok=True)
        return 0 if try_all(program, folder.resolve()) else 1
