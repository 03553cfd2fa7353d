"""A page of HTML that stands alone: the module, the scripts and a journey, which it plays when it is opened, from a
file and in any browser; and how it is tried in Chromium and Firefox."""
from __future__ import annotations

import base64
import html
import json
import re
import shutil
import socket
import subprocess
import tempfile
import time
from collections.abc import Callable
from pathlib import Path
from typing import Any

from scripts.processors.played import Played
from scripts.processors.tools import must
from sdm.laboratory.program import TOP, Fault

PAGE = TOP / "javascript" / "page.html"
SCRIPTS = ["structs.mjs", "sdm.mjs", "journey.mjs"]  # in the order in which they use each other
IMPORTED = re.compile(r"^(?:import .*|export \{.*\}) from .*;\n", re.M)
EXPORTED = re.compile(r"^export ", re.M)
EXAMPLE = TOP / "examples" / "approach"
PATIENCE = 60  # s
PORT = 2828  # of Firefox's Marionette
STATE = "return [document.body.dataset.state ?? '', document.getElementById('rows').textContent]"


def script_of(folder: Path) -> str:
    """The scripts of the package as one."""
    whole = "".join((folder / name).read_text() for name in SCRIPTS)
    return EXPORTED.sub("", IMPORTED.sub("", whole))


def page(folder: Path, module: str, given: str) -> str:
    """The page over a module of the package's folder, with an input to begin with."""
    text = PAGE.read_text()
    values = {
        "INPUT": html.escape(given),
        "SCRIPT": script_of(folder).replace("</script", "<\\/script"),
        "MODULE": base64.b64encode((folder / module).read_bytes()).decode(),
    }
    for name, value in values.items():
        must(text.count(f"@{name}@") == 1, f"javascript/page.html has no one place for {name}")
        text = text.replace(f"@{name}@", value)
    return text


def write(folder: Path) -> None:
    """Writes page.html into the package's folder."""
    (folder / "page.html").write_text(page(folder, "sdm.wasm", (EXAMPLE / "input").read_text()))


def in_chromium(file: Path) -> str:
    """What the page shows in Chromium, once it has played."""
    words = ["chromium", "--headless", "--no-sandbox", "--disable-gpu", "--virtual-time-budget=20000", "--dump-dom"]
    done = subprocess.run([*words, file.as_uri()], capture_output=True, timeout=PATIENCE, check=False)
    told = done.stdout.decode(errors="replace")
    must('data-state="played"' in told, f"Chromium didn't play the page: {told[:300]}")
    shown = re.search(r'<pre id="rows">(.*?)</pre>', told, re.S)
    return html.unescape(shown[1]) if shown else ""


class Marionette:
    """Firefox's own way to be driven, over a socket: no driver is needed."""

    def __init__(self, profile: Path) -> None:
        words = ["firefox-esr", "--headless", "--marionette", "--no-remote", "--profile", str(profile)]
        self.process = subprocess.Popen(words, stdout=subprocess.DEVNULL, stderr=subprocess.DEVNULL)
        self.count, self.link, begun = 0, socket.socket(), time.monotonic()
        while True:
            try:
                self.link = socket.create_connection(("127.0.0.1", PORT), timeout=PATIENCE)
                break
            except OSError:
                must(time.monotonic() - begun < PATIENCE, "Firefox doesn't listen")
                time.sleep(0.3)
        self.read()
        self.ask("WebDriver:NewSession", {})

    def read(self) -> Any:
        """The next message: its length, a colon, and JSON."""
        length = b""
        while not length.endswith(b":"):
            length += self.link.recv(1)
        whole = b""
        while len(whole) < int(length[:-1]):
            whole += self.link.recv(int(length[:-1]) - len(whole))
        return json.loads(whole)

    def ask(self, command: str, words: dict[str, object]) -> Any:
        """What a command answers."""
        self.count += 1
        message = json.dumps([0, self.count, command, words]).encode()
        self.link.sendall(b"%d:%s" % (len(message), message))
        _, _, fault, answer = self.read()
        must(fault is None, f"Firefox refused {command}: {fault}")
        return answer

    def run(self, code: str, *words: str) -> Any:
        """What a script on the page answers."""
        return self.ask("WebDriver:ExecuteScript", {"script": code, "args": list(words)})["value"]

    def close(self) -> None:
        self.link.close()
        self.process.terminate()
        self.process.wait(PATIENCE)


def in_firefox(file: Path) -> str:
    """What the page shows in Firefox, once it has played."""
    with tempfile.TemporaryDirectory(ignore_cleanup_errors=True) as profile:
        firefox = Marionette(Path(profile))
        try:
            firefox.ask("WebDriver:Navigate", {"url": file.as_uri()})
            begun = time.monotonic()
            state, shown = firefox.run(STATE)
            while not state and time.monotonic() - begun < PATIENCE:
                time.sleep(0.2)
                state, shown = firefox.run(STATE)
            must(state == "played", f"Firefox didn't play the page: {state} {shown[:300]}")
            return str(shown)
        finally:
            firefox.close()


BROWSERS: dict[str, Callable[[Path], str]] = {"chromium": in_chromium, "firefox-esr": in_firefox}


def in_browsers(folder: Path, scratch: Path) -> list[Played]:
    """How the page came out in each browser that is there, by both modules; a fault where none is there."""
    scratch.mkdir(parents=True)
    due, found = (EXAMPLE / "rows").read_text(), []
    there = [name for name in BROWSERS if shutil.which(name)]
    must(bool(there), "there is no browser; `scripts/setup processors` installs two")
    for name in there:
        for module in ("sdm.wasm", "sdm-64.wasm"):
            file = scratch / f"{module}.html"
            file.write_text(page(folder, module, (EXAMPLE / "input").read_text()))
            try:
                shown = BROWSERS[name](file)
            except (Fault, OSError, subprocess.SubprocessError) as why:
                shown = str(why)
            found.append(Played(f"{name}, {module}", "the page's rows" if shown == due else shown[:500], shown == due))
    return found
