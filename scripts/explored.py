"""`gract explore` in a real browser, for scripts/check_explorer and scripts/measure_explorer: a run of it, a page, and a plain filter of
rows to compare with."""

import os
import re
import signal
import subprocess
import sys
import time
import urllib.parse
from pathlib import Path

TOP = Path(__file__).resolve().parent.parent
DEBIAN = "/usr/bin/python3"
CHROMIUM, DRIVER = "/usr/bin/chromium", "/usr/bin/chromedriver"
WAIT = 60.0
sys.path.insert(0, str(TOP / "python"))

try:
    from selenium import webdriver
    from selenium.webdriver.chrome.service import Service
    from selenium.webdriver.common.action_chains import ActionChains
    from selenium.webdriver.common.by import By
    from selenium.webdriver.common.keys import Keys
except ImportError:
    webdriver = Service = ActionChains = By = Keys = None

from gract import questions  # noqa: E402


def missing():
    """What is not there to open a page with; Debian's Python is tried where another one has no Selenium."""
    if webdriver is None and sys.executable != DEBIAN and os.path.exists(DEBIAN):
        os.execv(DEBIAN, [DEBIAN, *sys.argv])
    there = {"python3-selenium": webdriver, "chromium": os.path.exists(CHROMIUM), "chromium-driver": os.path.exists(DRIVER)}
    return [name for name, is_there in there.items() if not is_there]


class Plain:
    """The rows of the storms, and questions about them by a filter."""

    def __init__(self, rows):
        self.rows = {}
        for number, hour, x, y in rows:
            self.rows[number, hour // 6] = (x, y)

    def slice(self, instant, region=None):
        return sorted((number, x, y) for (number, at), (x, y) in self.rows.items()
                      if at == instant and (region is None or region.contains(x, y)))

    def interval(self, since, until, region):
        found = {}
        for (number, at), (x, y) in sorted(self.rows.items()):
            if since <= at <= until and region.contains(x, y):
                found.setdefault(number, (number, at, x, y))
        return sorted(found.values())

    def visits(self, since, until, region):
        found, stay = [], []
        for (number, at), (x, y) in sorted(self.rows.items()):
            inside = since <= at <= until and region.contains(x, y)
            if stay and (not inside or stay[0][0] != number):
                found.append((number, *stay[0][1:], *stay[-1][1:], len(stay)))
                stay = []
            if inside:
                stay.append((number, at, x, y))
        return found + ([(stay[0][0], *stay[0][1:], *stay[-1][1:], len(stay))] if stay else [])

    def path(self, number):
        return sorted((at, x, y) for (other, at), (x, y) in self.rows.items() if other == number)

    def nearest(self, count, instant, cell, without=None):
        rows = [(number, x, y, (x - cell[0]) ** 2 + (y - cell[1]) ** 2) for number, x, y in self.slice(instant) if number != without]
        return sorted(rows, key=lambda row: (row[3], row[0]))[:count]


class Explored:
    """A run of `gract explore`."""

    def __init__(self, *words):
        environment = {**os.environ, "PYTHONPATH": str(TOP / "python"), "PYTHONDONTWRITEBYTECODE": "1"}
        self.process = subprocess.Popen([sys.executable, "-m", "gract", "explore", *map(str, words), "--no-browser"],
                                        env=environment, stderr=subprocess.PIPE, text=True)
        said = self.process.stderr.readline()
        found = re.search(r"file://(\S+);", said)
        if not found:
            raise RuntimeError(said + self.process.stderr.read())
        self.file = Path(found.group(1))
        self.address = re.search(r"http://[0-9.:]+/", self.file.read_text()).group(0)

    def children(self):
        listed = subprocess.run(["ps", "--ppid", str(self.process.pid), "-o", "pid="], stdout=subprocess.PIPE, text=True).stdout
        return [int(pid) for pid in listed.split()]

    def end(self, how=signal.SIGINT):
        if self.process.poll() is None:
            self.process.send_signal(how)
        status = self.process.wait(10)
        self.process.stderr.close()
        return status


def started(downloads, *words):
    """A browser without a window."""
    options = webdriver.ChromeOptions()
    for word in ("--headless=new", "--no-sandbox", "--disable-gpu", "--disable-dev-shm-usage", "--window-size=1400,1000",
                 "--force-device-scale-factor=1", *words):
        options.add_argument(word)
    options.binary_location = CHROMIUM
    options.set_capability("goog:loggingPrefs", {"browser": "ALL"})
    browser = webdriver.Chrome(service=Service(DRIVER), options=options)
    browser.execute_cdp_cmd("Browser.setDownloadBehavior", {"behavior": "allow", "downloadPath": str(downloads)})
    return browser


class Page:
    """A page in the browser."""

    def __init__(self, browser, downloads):
        self.browser, self.downloads = browser, downloads
        self.handle = browser.current_window_handle

    def run(self, script, *words):
        return self.browser.execute_script(script, *words)

    def of(self, name):
        return self.browser.find_element(By.ID, name)

    def until(self, what, script, *words):
        """What a script answers, once that is true."""
        end = time.monotonic() + WAIT
        while time.monotonic() < end:
            try:
                found = self.run(script, *words)
            except Exception:  # The page is being loaded.
                found = None
            if found:
                return found
            time.sleep(0.02)
        raise RuntimeError(f"{what} does not come; the page says {self.of('told').text!r} {self.of('banner').text!r}")

    def open(self, address):
        self.browser.get(address)
        self.until("the map", "return document.documentElement.dataset.ready === 'yes' && window.gract.known !== null")
        return self

    def at(self, x, y):
        """Where a cell is on the map, from its middle."""
        return self.run("const view = gract.view; return [view.px(arguments[0]) - view.wide / 2, view.py(arguments[1]) - view.high / 2]", x, y)

    def chain(self):
        return ActionChains(self.browser, duration=30)

    def drag(self, begin, end):
        (x1, y1), (x2, y2) = self.at(*begin), self.at(*end)
        self.chain().move_to_element_with_offset(self.of("over"), round(x1), round(y1)).click_and_hold() \
            .move_by_offset(round(x2 - x1) // 2, round(y2 - y1) // 2) \
            .move_to_element_with_offset(self.of("over"), round(x2), round(y2)).release().perform()

    def click(self, x, y, shift=False):
        px, py = self.at(x, y)
        chain = self.chain()
        if shift:
            chain.key_down(Keys.SHIFT)
        chain.move_to_element_with_offset(self.of("over"), round(px), round(py)).click()
        if shift:
            chain.key_up(Keys.SHIFT)
        chain.perform()

    def tool(self, name):
        self.browser.find_element(By.XPATH, f"//label[input[@name='tool' and @value='{name}']]").click()

    def type(self, name, text, enter=True):
        box = self.of(name)
        box.send_keys(Keys.CONTROL, "a")
        box.send_keys(Keys.DELETE, text, *([Keys.ENTER] if enter else []))

    def go(self, text):
        """Goes to a time that is typed."""
        self.type("now", text)
        self.still()

    def still(self):
        self.until("the slice", "return gract.shown && gract.shown.instant === gract.now && gract.dirty.size === 0")

    def asked(self, *kinds):
        """The answers, once these are there and nothing is being asked."""
        self.until(f"the answer to {kinds}", """return !document.querySelector('#answers[aria-busy]')
            && [...document.querySelectorAll('.answer')].map(it => it.dataset.kind).join() === arguments[0]""", ",".join(kinds))
        self.still()
        return self.run("return gract.panel.answers.map(it => ({kind: it.kind, rows: it.rows, lines: it.lines, call: it.call}))")

    def shown(self, nth=0):
        """The texts of a table."""
        return self.run("""return [...document.querySelectorAll('.answer')[arguments[0]].querySelectorAll('tbody tr')]
            .map(row => [...row.cells].map(cell => cell.textContent))""", nth)

    def in_view(self):
        return self.run("return gract.painter.inView.map(id => gract.store.objects.numbers[id]).sort((a, b) => a - b)")

    def saved(self, name, press):
        """The file that a button saves."""
        for file in self.downloads.iterdir():
            file.unlink()
        press()
        end = time.monotonic() + WAIT
        while time.monotonic() < end:
            files = [file for file in self.downloads.iterdir() if file.suffix == name]
            if files and files[0].stat().st_size:
                time.sleep(0.05)
                return files[0].read_bytes()
            time.sleep(0.02)
        raise RuntimeError(f"no file {name} is saved")


class Corners:
    """A polygon in cells, whose rows are those with the middle of their cell in it."""

    def __init__(self, ring):
        self.ring = ring

    def contains(self, x, y):
        x, y, turns = x + 0.5, y + 0.5, 0
        for (x1, y1), (x2, y2) in zip(self.ring, self.ring[1:] + self.ring[:1]):
            side = (x2 - x1) * (y - y1) - (x - x1) * (y2 - y1)
            turns += (y1 <= y < y2 and side > 0) - (y2 <= y < y1 and side < 0)
        return turns != 0


def page_state(text):
    return urllib.parse.unquote(dict(pair.split("=", 1) for pair in text.split("&"))["view"])


def region_of(line):
    """The region of a question line."""
    words = line.split()
    words = words[{"slice": 2, "interval": 3}[words[0]]:]
    shapes, words = [], words[2:] if words[0] == "any" else words
    while words:
        make, count = {"rect": (questions.rect, 4), "disc": (questions.disc, 3)}[words[0]]
        shapes.append(make(*map(int, words[1:1 + count])))
        words = words[1 + count:]
    return shapes[0] if len(shapes) == 1 else questions.zone(*shapes)
