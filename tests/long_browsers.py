"""The pages of HTML of a room, in browsers, which `./test` does not do.

    python3 tests/long_browsers.py [--parish COMMAND] [--only WORD] [--pictures FOLDER] [ARCHIVES [SEED]]

A drawn archive of ARCHIVES small ones (200, some 1,000 persons; shown/drawn.py) is shown. Each link of each page is
followed: none is dead, no page has a word that only hidden records hold, and only pedigrees and the first page, which
lists all registers and surnames, have over 64 KB. Each page is read by `tidy`, which may warn of nothing. Of each kind
of page one is read by `w3m` and `lynx`, which have to show all its words in their order, and by headless Chromium at
1,280 and 360 pixels, in light and in dark colours: nothing is wider than the window, each text has a contrast of 4.5 to
its background, each link is reached by the keyboard, and the page reports no error. `--pictures` writes two pictures of
a small archive. Debian has all of it:
`apt-get install --no-install-recommends chromium w3m lynx tidy`. The last line is `N passed, M failed`.
"""

from __future__ import annotations

import argparse
import base64
import collections
import contextlib
import html.parser
import http.client
import json
import os
import re
import subprocess
import sys
import tempfile

sys.dont_write_bytecode = True

from archives import lines  # noqa: E402
from harness import Case, Tools, demand  # noqa: E402
from rooms import Room  # noqa: E402
from run import command, executable, outcome_of  # noqa: E402
from sheet_commands import LEES, Shown  # noqa: E402
from shown.drawn import TODAY, archive, date_of  # noqa: E402
from shown.gedcom import exported  # noqa: E402
from shown.masked import shown  # noqa: E402

WORD = re.compile(rb"zq\d+")
POINTER = re.compile(rb"@([A-Z]+\d+)@")
EACH = 1_000  # words of an archive, at most
DAY = date_of(TODAY).isoformat()
LARGEST = 65_536
# Frames of fields and buttons, as browsers of texts draw them, and a colon, which stands at the word before it.
FRAMES = r"[\[\]_:]"
SEEDS = ("/", "/surname?name=", "/search?q=z")  # each drawn word begins with z
KINDS = (
    ("first page", "/"), ("person", "/person/"), ("family", "/family/"), ("pedigree", "/pedigree/"),
    ("register", "/register/"), ("surname", "/surname"), ("search", "/search"),
)
WIDTHS = (1_280, 360)
COLOURS = ("light", "dark")
# In a page: how wide it is, texts of too little contrast, and how many links there are.
LOOKED = """(() => {
  const parts = (c) => c.match(/[\\d.]+/g).map(Number);
  const light = (c) => { const [r, g, b] = parts(c).map((v) => v / 255).map((v) =>
    v <= 0.03928 ? v / 12.92 : ((v + 0.055) / 1.055) ** 2.4); return 0.2126 * r + 0.7152 * g + 0.0722 * b; };
  const ground = (e) => { for (; e; e = e.parentElement) { const c = getComputedStyle(e).backgroundColor;
    const p = parts(c); if (p.length < 4 || p[3] > 0) return c; }
    return matchMedia('(prefers-color-scheme: dark)').matches ? 'rgb(18, 18, 18)' : 'rgb(255, 255, 255)'; };
  const faint = [];
  for (const e of document.querySelectorAll('body *')) {
    if (![...e.childNodes].some((n) => n.nodeType === 3 && n.textContent.trim())) continue;
    const [a, b] = [light(getComputedStyle(e).color), light(ground(e))].sort((x, y) => y - x);
    if ((a + 0.05) / (b + 0.05) < 4.5) faint.push(e.tagName + ' ' + e.textContent.trim().slice(0, 40));
  }
  const root = document.documentElement;
  return JSON.stringify({wide: root.scrollWidth, window: root.clientWidth, faint: faint.slice(0, 5),
    links: document.querySelectorAll('a[href], input, button').length});
})()"""


class Page(html.parser.HTMLParser):
    """The links of a page, and the words that it shows."""

    def __init__(self, text: str):
        super().__init__()
        self.links, self.texts, self.inside = [], [], []
        self.feed(text)

    def handle_starttag(self, tag, attrs):
        given = dict(attrs)
        if tag in ("a", "link"):
            self.links.append(given["href"])
        if tag == "form":
            self.links.append(given["action"] + "?q=a")
        if tag not in ("meta", "link", "input", "br"):
            self.inside.append(tag)

    def handle_endtag(self, tag):
        self.inside.pop()

    def handle_data(self, data):
        if "body" in self.inside:
            self.texts.append(data)

    def words(self) -> list[str]:
        return " ".join(self.texts).split()


class Drawn:
    """So many drawn archives as one file, and the words that only hidden records of it hold."""

    def __init__(self, archives: int, seed: int):
        self.archives, self.lines, hidden = archives, [], set()
        for number in range(archives):
            one = archive(seed, number, number * EACH)
            body = one.file.removeprefix(b"0 HEAD\n").removesuffix(b"0 TRLR\n")
            self.lines.append(POINTER.sub(b"@\\1N%d@" % number, body))
            seen = exported(shown(one.records, TODAY), "Ashby Society")
            hidden |= set(WORD.findall(one.file)) - set(WORD.findall(seen))
        self.file = b"0 HEAD\n" + b"".join(self.lines) + b"0 TRLR\n"
        self.hidden = hidden


class Visitor:
    """Asks a room for pages, and remembers them."""

    def __init__(self, room):
        self.room, self.pages = room, {}

    def page(self, target: str) -> bytes:
        if target not in self.pages:
            one = http.client.HTTPConnection("127.0.0.1", self.room.port, timeout=60)
            one.request("GET", target)
            got = one.getresponse()
            body = got.read()
            demand(got.status == 200, f"{target}: {got.status}")
            self.pages[target] = body
            one.close()
        return self.pages[target]

    def all_pages(self) -> dict[str, bytes]:
        """Every page that these lead to."""
        waiting = collections.deque(SEEDS)
        seen = set(SEEDS)
        while waiting:
            target = waiting.popleft()
            body = self.page(target)
            for link in () if target.endswith(".css") else Page(body.decode()).links:
                demand(link.startswith("/"), f"{target} leads to {link}")
                if link not in seen:
                    seen.add(link)
                    waiting.append(link)
        return self.pages


def of_kind(pages: dict[str, bytes], front: str) -> str:
    """The longest page of a kind that fits."""
    fits = [it for it in pages if it.startswith(front) and (front != "/" or it == "/")]
    demand(bool(fits), f"there is no page {front}")
    return max(fits, key=lambda it: (len(pages[it]) < LARGEST, len(pages[it])))


def links_and_words(pages, drawn):
    registers = sum(it.startswith("/register/") for it in pages)
    demand(min(len(pages) / 5, registers) > drawn.archives, f"only {len(pages)} pages, {registers} of registers")
    for target, body in pages.items():
        found = set(WORD.findall(body)) & drawn.hidden
        demand(not found, f"{target} has {sorted(found)[:3]}, which are hidden")
        whole = target == "/" or target.startswith("/pedigree/")
        demand(len(body) < LARGEST or whole, f"{target} has {len(body)} bytes")
    words = set(WORD.findall(b"".join(pages.values())))
    few = min(len(words), len(drawn.hidden)) < 10 * drawn.archives
    demand(not few, f"only {len(words)} words, and {len(drawn.hidden)} hidden ones")


def valid(pages):
    for target, body in pages.items():
        if target.endswith(".css"):
            continue
        # (a list of nothing is right in HTML 5, and tidy warns only that it would leave it out)
        words = ["tidy", "-q", "-e", "-utf8", "--drop-empty-elements", "no"]
        got = subprocess.run(words, input=body, capture_output=True, check=False)
        demand(got.returncode == 0 and not got.stderr, f"{target}: {got.stderr.decode()[:300]}")


def shown_by(words: tuple[str, ...], room, pages):
    """A browser of texts shows all words of each kind of page, in their order."""
    for _, front in KINDS:
        target = of_kind(pages, front)
        got = subprocess.run([*words, f"http://127.0.0.1:{room.port}{target}"], capture_output=True, timeout=120,
                             check=True)
        told = iter(re.sub(FRAMES, " ", got.stdout.decode()).split())
        for word in Page(pages[target].decode()).words():
            wanted = re.sub(FRAMES, " ", word).split()
            for part in wanted:
                demand(part in told, f"{words[0]} does not show {part!r} of {target}")


class Chromium:
    """A headless Chromium that is told by a pipe what to do."""

    def __init__(self):
        self.folder = tempfile.TemporaryDirectory()
        to_read, self.to = os.pipe()
        self.back, to_write = os.pipe()
        more = ("--headless=new", "--no-sandbox", "--disable-gpu", "--hide-scrollbars", "--disable-dev-shm-usage",
                "--no-first-run", "--disable-background-networking", f"--user-data-dir={self.folder.name}")

        def arranged():
            os.dup2(to_read, 13)
            os.dup2(to_write, 14)
            os.dup2(13, 3)
            os.dup2(14, 4)

        self.process = subprocess.Popen(
            ["chromium", "--remote-debugging-pipe", *more, "about:blank"], preexec_fn=arranged, close_fds=False,
            stdin=subprocess.DEVNULL, stdout=subprocess.DEVNULL, stderr=subprocess.DEVNULL)
        os.close(to_read)
        os.close(to_write)
        self.number, self.left, self.events, self.session = 0, b"", [], None
        target = self.ask("Target.createTarget", url="about:blank")["targetId"]
        self.session = self.ask("Target.attachToTarget", targetId=target, flatten=True)["sessionId"]
        for domain in ("Page", "Runtime", "Log"):
            self.ask(f"{domain}.enable")

    def message(self) -> dict:
        while b"\0" not in self.left:
            piece = os.read(self.back, 1 << 20)
            demand(bool(piece), "Chromium has ended")
            self.left += piece
        one, self.left = self.left.split(b"\0", 1)
        return json.loads(one)

    def ask(self, method: str, **params) -> dict:
        self.number += 1
        said = {"id": self.number, "method": method, "params": params}
        if self.session:
            said["sessionId"] = self.session
        os.write(self.to, json.dumps(said).encode() + b"\0")
        while True:
            got = self.message()
            if got.get("id") == self.number:
                demand("error" not in got, f"{method}: {got.get('error')}")
                return got["result"]
            self.events.append(got)

    def wait(self, method: str):
        while not any(it.get("method") == method for it in self.events):
            self.events.append(self.message())

    def open(self, address: str, width: int, colours: str, height: int = 800):
        self.ask("Emulation.setDeviceMetricsOverride", width=width, height=height, deviceScaleFactor=1,
                 mobile=width < 500)
        self.ask("Emulation.setEmulatedMedia", features=[{"name": "prefers-color-scheme", "value": colours}])
        self.events.clear()
        got = self.ask("Page.navigate", url=address)
        demand("errorText" not in got, f"{address}: {got.get('errorText')}")
        self.wait("Page.loadEventFired")

    def value(self, expression: str):
        return self.ask("Runtime.evaluate", expression=expression, returnByValue=True)["result"]["value"]

    def faults(self) -> list[str]:
        """What the page reports, but for the picture of an address, which no page has."""
        entries = [it["params"]["entry"] for it in self.events if it.get("method") == "Log.entryAdded"]
        return [it["text"] for it in entries if not it.get("url", "").endswith("/favicon.ico")]

    def tabs(self, most: int) -> int:
        """How many different elements the Tab key comes to."""
        for number in range(most + 1):
            for kind in ("rawKeyDown", "keyUp"):
                self.ask("Input.dispatchKeyEvent", type=kind, key="Tab", code="Tab", windowsVirtualKeyCode=9)
            self.value(f"document.activeElement.title = 'reached{number}'; document.body.title = ''")
        return self.value("document.querySelectorAll('[title^=reached]').length")

    def picture(self) -> bytes:
        return base64.b64decode(self.ask("Page.captureScreenshot", format="png")["data"])

    def close(self):
        self.process.kill()
        self.process.wait()
        os.close(self.to)
        os.close(self.back)
        self.folder.cleanup()


def usable(browser, room, pages, width, colours):
    for _, front in KINDS:
        target = of_kind(pages, front)
        browser.open(f"http://127.0.0.1:{room.port}{target}", width, colours)
        seen = json.loads(browser.value(LOOKED))
        where = f"{target} at {width} pixels, {colours}"
        demand(seen["wide"] <= seen["window"], f"{where}: it is {seen['wide']} wide, and the window {seen['window']}")
        demand(not seen["faint"], f"{where}: too little contrast: {seen['faint']}")
        demand(not browser.faults(), f"{where}: {browser.faults()}")
        some = min(seen["links"], 40)
        demand(browser.tabs(some) >= some, f"{where}: the Tab key does not reach each of {some} links")


@contextlib.contextmanager
def opened(at):
    """A room of the archive that is open as long as it is needed."""
    room = Room(at, 1_000_000, DAY, ("--html",)).__enter__()
    try:
        yield room
    finally:
        room.process.kill()
        room.process.communicate()


def pictures(browser, at, folder):
    """Two pictures of a small archive: a person, and a pedigree in a narrow window in the dark."""
    at.made().apply(lines(LEES))
    with opened(at) as room:
        for name, target, width, height, colours in (("room-person", "/person/2", 800, 560, "light"),
                                                     ("room-family", "/family/4", 360, 280, "dark")):
            browser.open(f"http://127.0.0.1:{room.port}{target}", width, colours, height)
            with open(os.path.join(folder, f"{name}.png"), "wb") as file:
                file.write(browser.picture())


def cases(room, drawn, browser):
    visitor = Visitor(room)
    pages = visitor.all_pages()
    yield Case(f"links: {len(pages)} pages, none dead, nothing hidden", lambda: links_and_words(pages, drawn))
    yield Case("tidy: no page has a fault", lambda: valid(pages))
    yield Case("w3m shows all words", lambda: shown_by(("w3m", "-dump", "-cols", "500"), room, pages))
    yield Case("lynx shows all words", lambda: shown_by(("lynx", "-dump", "-nolist", "-width=500"), room, pages))
    for width in WIDTHS:
        for colours in COLOURS:
            name = f"chromium: {width} pixels, {colours}"
            yield Case(name, lambda width=width, colours=colours: usable(browser, room, pages, width, colours))


def main():
    words = argparse.ArgumentParser(usage=__doc__.strip())
    words.add_argument("--parish", metavar="COMMAND")
    words.add_argument("--only", metavar="WORD", default="")
    words.add_argument("--pictures", metavar="FOLDER")
    words.add_argument("archives", nargs="?", type=int, default=200)
    words.add_argument("seed", nargs="?", type=int, default=1)
    given = words.parse_args()
    tools = Tools(command(given.parish) if given.parish else (executable("parish"),), None)
    drawn, browser = Drawn(given.archives, given.seed), Chromium()
    passed = failed = 0
    with Shown(tools) as at:
        got = at.made().import_(drawn.file, limit=900)
        demand(got.status == 0, f"the file is refused: {got.err[:200]!r}")
        with opened(at) as room:
            for case in cases(room, drawn, browser):
                if given.only not in case.name:
                    continue
                why, seconds = outcome_of(case)
                told = f"FAILED {case.name}\n       {why}" if why else f"passed {case.name} ({seconds:.1f} s)"
                print(told, flush=True)
                failed, passed = failed + (why is not None), passed + (why is None)
    if given.pictures:
        with Shown(tools) as at:
            pictures(browser, at, given.pictures)
    browser.close()
    print(f"{passed} passed, {failed} failed")
    return 1 if failed or not passed else 0


if __name__ == "__main__":
    sys.exit(main())
