"""Tries docs/definitions.html in a browser: it is no part of the gate.

The page must load from the disk without a line in the browser's console. Each filter must leave as many rows as
docs/definitions.csv has of them, a column's head must sort by it, a link with filters must set them again, and nothing
may be wider than the window, on a desk and on a phone, light and dark.

    scripts/house try browsed [--keep FOLDER]    FOLDER takes pictures of the page
"""
from __future__ import annotations

import argparse
import sys
from collections.abc import Callable
from pathlib import Path

from selenium import webdriver
from selenium.webdriver.common.by import By
from selenium.webdriver.support.select import Select

from scripts.pages.definitions import DATA, PAGE, rows_of
from scripts.pages.matrix import Row

WINDOWS = [(1280, 900), (390, 844)]
SCHEMES = ["light", "dark"]
FILTERS: list[tuple[str, str, Callable[[Row], bool]]] = [  # a filter, its value, and what it must leave
    ("source", "clause", Row.has_clause),
    ("source", "simplified", lambda row: row.source.startswith("simplified ")),
    ("claim", "C", lambda row: row.is_of("C")),
    ("claim", "none", lambda row: not row.claims),
    ("crate", "sdm_ride", lambda row: row.file.startswith("crates/sdm_ride/")),
    ("shown", "case", lambda row: "case `" in row.shown_by),
    ("shown", "nothing", lambda row: not row.shown_by),
]
HEADS = ["name", "meaning", "source", "contract", "claims", "shown_by"]


class Tried(Exception):
    """What the page does otherwise than it must."""


def browser_of(width: int, height: int, scheme: str) -> webdriver.Chrome:
    """A browser with a window of a size, in a colour scheme."""
    options = webdriver.ChromeOptions()
    for word in ("--headless=new", "--no-sandbox", "--hide-scrollbars"):
        options.add_argument(word)
    browser = webdriver.Chrome(options=options)
    metrics = {"width": width, "height": height, "deviceScaleFactor": 1, "mobile": width < 500}
    browser.execute_cdp_cmd("Emulation.setDeviceMetricsOverride", metrics)
    media = {"features": [{"name": "prefers-color-scheme", "value": scheme}]}
    browser.execute_cdp_cmd("Emulation.setEmulatedMedia", media)
    return browser


def names(browser: webdriver.Chrome) -> list[str]:
    """The definitions that are shown."""
    script = "return [...document.querySelectorAll('#rows td.name > code')].map((code) => code.textContent)"
    return list(map(str, browser.execute_script(script)))


def must(is_so: bool, what: str) -> None:
    if not is_so:
        raise Tried(what)


def try_filters(browser: webdriver.Chrome, rows: list[Row]) -> None:
    """Each filter by itself."""
    for name, value, keeps in FILTERS:
        select = Select(browser.find_element(By.ID, name))
        select.select_by_value(value)
        must(names(browser) == [row.name for row in rows if keeps(row)], f"{name}={value} leaves other rows")
        must(browser.execute_script("return location.hash") == f"#{name}={value}", f"{name}={value} isn't in the link")
        select.select_by_value("")
    words = browser.find_element(By.ID, "words")
    words.send_keys("speed Band")
    found = [
        row.name for row in rows if all(word in " ".join(vars(row).values()).lower() for word in ("speed", "band"))
    ]
    must(names(browser) == found, "words leave other rows")
    words.clear()
    words.send_keys("x")  # clear sends no event
    words.send_keys("\b")
    must(len(names(browser)) == len(rows), "rows stay away")


def try_sorting(browser: webdriver.Chrome, rows: list[Row]) -> None:
    """The first head, once and twice, by the names that are letters alone."""
    head = browser.find_elements(By.CSS_SELECTOR, "#heads button")[HEADS.index("name")]
    for is_falling in (False, True):
        browser.execute_script("arguments[0].click()", head)
        shown = [name.lower() for name in names(browser) if name.isalpha()]
        by_name = sorted((row.name.lower() for row in rows if row.name.isalpha()), reverse=is_falling)
        must(shown == by_name, "a head sorts otherwise")


def try_link(browser: webdriver.Chrome, rows: list[Row]) -> None:
    """A link with two filters."""
    browser.get("about:blank")
    browser.get(PAGE.as_uri() + "#source=own&claim=supervisor")
    found = [row.name for row in rows if row.source.startswith("own") and row.is_of("supervisor")]
    must(names(browser) == found, "a link leaves other rows")


def main(args: list[str]) -> int:
    parser = argparse.ArgumentParser(prog="scripts/house try browsed", description=__doc__.split("\n\n")[0])
    parser.add_argument("--keep", type=Path, metavar="FOLDER", help="where pictures of the page are kept")
    words = parser.parse_args(args)
    rows = rows_of(DATA.read_text())
    for width, height in WINDOWS:
        for scheme in SCHEMES:
            browser = browser_of(width, height, scheme)
            try:
                browser.get(PAGE.as_uri())
                must(len(names(browser)) == len(rows), "not all rows are shown")
                wide = browser.execute_script("return document.documentElement.scrollWidth")
                must(wide == width, f"the page is {wide} wide")
                if words.keep:
                    words.keep.mkdir(parents=True, exist_ok=True)
                    browser.save_screenshot(str(words.keep / f"definitions-{width}-{scheme}.png"))
                try_filters(browser, rows)
                try_sorting(browser, rows)
                try_link(browser, rows)
                must(not browser.get_log("browser"), f"the console has {browser.get_log('browser')}")
            except Tried as why:
                print(f"try-browsed: {width} {scheme}: {why}", file=sys.stderr)
                return 1
            finally:
                browser.quit()
            print(f"{width} {scheme}: {len(rows)} rows, {len(FILTERS) + 1} filters, sorted, by a link")
    return 0
