#!/usr/bin/env python3
"""Hunts through the page of `hdesk web`, in a browser, over a dump of `tools/real_dump.sh`.

It drives Debian's Chromium, and checks that

- the page is served with its policy, loads nothing from elsewhere, and breaks no rule of the policy;
- the planted session is found by clicks alone; its chain names the fields and classes of Planted.java that hold it; a cut of
  its last link shows what became unreachable, and an undo brings that back;
- a second window sees the edit within three seconds, and isn't offered its undo;
- a third window is told that no desk is free, and gets one once there is one;
- a desk is taken again, with its marks and its private part, which no other window sees;
- the same hunt succeeds by keyboard alone;
- a refusal is shown in words with its name, and a long reply is drawn in part;
- names that look like markup are shown as text;
- a page of another origin gets no desk by a WebSocket, and none of its lines reaches a session by `fetch` or by a form;
- no view is wider than its window, at 360, 1,280 and 2,560 pixels, light and dark: a screenshot of each is kept;
- a lost desk is told, and the log is printed when both desks have quit;
- the first view and each click take at most 200 milliseconds, or those of `--most`, but for an edit of millions of objects.

It ends at the first check that later ones rely on. Where the browser is missing it says so and counts as skipped.
"""
from __future__ import annotations

import argparse
import contextlib
import http.client
import http.server
import json
import os
import shutil
import statistics
import subprocess
import sys
import tempfile
import threading
import time
from pathlib import Path
from typing import Callable, Dict, Iterator, List, Tuple

sys.dont_write_bytecode = True  # the checkout stays as it is
sys.path.append("/usr/lib/python3/dist-packages")  # of Debian's packages, where another python3 comes first in the PATH

from dumps import Format
from report import Report, perform, positive, readable, words_of
from session import TOP, Program, Reader, Wrong

try:
    from selenium import webdriver
    from selenium.common.exceptions import StaleElementReferenceException, WebDriverException
    from selenium.webdriver.chrome.service import Service
    from selenium.webdriver.common.action_chains import ActionChains
    from selenium.webdriver.common.keys import Keys
    from selenium.webdriver.remote.webelement import WebElement
except ImportError:
    webdriver = None

PAGE = TOP / "web" / "desk.html"
POLICY = "default-src 'none'; script-src 'unsafe-inline'; style-src 'unsafe-inline'; img-src data:; connect-src 'self'"
LONG = ("clear all weak",)  # a repair of millions of objects takes the server itself longer
WAIT = 20.0  # seconds for what has no bound of its own
SIZES = {360: 740, 1280: 800, 2560: 1440}
VIEWS = ("heap", "class", "object", "whatif", "line")
HELD = {"Session": "17", "long[]": "64", "java/lang/String": "14", "byte[]": "3"}  # what the planted session alone holds
MARKUP = "<img/src=x/onerror=document.title='run'>"

# Runs in each page before anything of it: notes when the table of classes had its first rows on the screen.
FIRST_VIEW = """
(function look() {
  if (document.querySelector("#classes tbody tr")) requestAnimationFrame(() => { window.firstView = performance.now(); });
  else requestAnimationFrame(look);
})();
"""

# Notes how long it takes from the next event of a kind until something holds and was drawn.
TIMED = """
window.took = null;
addEventListener("%s", () => {
  const began = performance.now();
  const look = () => requestAnimationFrame(() => {
    if (%s) requestAnimationFrame(() => { window.took = performance.now() - began; });
    else look();
  });
  look();
}, { capture: true, once: true });
"""

# What a page of another origin tries. It notes how each try ended.
ELSEWHERE = """<!DOCTYPE html><title>elsewhere</title>
<iframe name="hidden"></iframe>
<form id="form" method="post" enctype="text/plain" target="hidden" action="http://127.0.0.1:PORT/desk">
<textarea name="a">x
clearall weak
clearall soft
</textarea></form>
<script>
window.ends = {};
const note = (name, how) => { window.ends[name] = how; };
for (const host of ["127.0.0.1", "localhost"]) {
  const socket = new WebSocket(`ws://${host}:PORT/desk`);
  socket.onopen = () => { note(host, "open"); socket.send("clearall weak"); };
  socket.onclose = () => { if (!window.ends[host]) note(host, "refused"); };
}
const lines = "\\nclearall weak\\nclearall soft\\n";
fetch("http://127.0.0.1:PORT/desk", { method: "POST", mode: "no-cors", body: lines })
  .then((answer) => note("fetch", answer.type), () => note("fetch", "refused"));
fetch("http://127.0.0.1:PORT/", { mode: "cors" }).then(() => note("read", "read"), () => note("read", "refused"));
document.querySelector("iframe").addEventListener("load", () => note("form", "sent"));
document.getElementById("form").submit();
</script>"""


class Web:
    """`hdesk web` with two desks, on a port that the system chooses."""

    def __init__(self, program: Program, dump: str, analysts: int = 2) -> None:
        words = [program.path, "web", dump, "--port", "0", "--analysts", str(analysts), "--page", str(PAGE)]
        self._process = program.start(words, stdin=subprocess.DEVNULL)
        self._wait = program.wait
        self._reader = Reader(self._process.stdout.fileno(), program.wait)
        word, port = self._reader.lines(1)[0].split()
        if word != "listening":
            raise Wrong(f"the server begins with {word!r}, and not with its port")
        self.port = int(port)
        self.address = f"http://127.0.0.1:{self.port}/"

    def log(self) -> List[str]:
        """The lines of the log, once all desks have quit."""
        log = self._reader.to_end()
        status = self._process.wait(self._wait)
        if status != 0:
            raise Wrong(f"the server ends with status {status}")
        return log.splitlines()


class Window:
    """A browser with one window."""

    def __init__(self, address: str, times: List[Tuple[str, float]]) -> None:
        self._times = times
        options = webdriver.ChromeOptions()
        options.binary_location = shutil.which("chromium")
        for word in ("--headless=new", "--disable-gpu", "--disable-dev-shm-usage", "--hide-scrollbars"):
            options.add_argument(word)
        if os.geteuid() == 0:
            options.add_argument("--no-sandbox")
        options.set_capability("goog:loggingPrefs", {"browser": "ALL", "performance": "ALL"})
        self.driver = webdriver.Chrome(service=Service(shutil.which("chromedriver")), options=options)
        self.driver.execute_cdp_cmd("Page.addScriptToEvaluateOnNewDocument", {"source": FIRST_VIEW})
        self.look(1280, False)
        self.address = address
        self.driver.get(address)

    def close(self) -> None:
        self.driver.quit()

    def look(self, width: int, is_dark: bool) -> None:
        """Sets the size of the window, and whether it is light or dark."""
        sizes = {"width": width, "height": SIZES[width], "deviceScaleFactor": 1, "mobile": False}
        self.driver.execute_cdp_cmd("Emulation.setDeviceMetricsOverride", sizes)
        scheme = {"name": "prefers-color-scheme", "value": "dark" if is_dark else "light"}
        self.driver.execute_cdp_cmd("Emulation.setEmulatedMedia", {"features": [scheme]})

    def value(self, expression: str) -> object:
        return self.driver.execute_script(f"return {expression}")

    def until(self, expression: str, wait: float = WAIT) -> float:
        """Waits until something holds in the page; the seconds that this took."""
        began = time.monotonic()
        while not self.value(expression):
            if time.monotonic() > began + wait:
                raise Wrong(f"the page does not come to {expression} within {wait:g} seconds")
            time.sleep(0.02)
        return time.monotonic() - began

    def find(self, selector: str, text: str = "") -> WebElement:
        """The first element that is shown, of those a selector names, whose text is the one given."""
        script = """return [...document.querySelectorAll(arguments[0])].find((node) => node.offsetParent
            && (!arguments[1] || node.textContent.trim() === arguments[1]))"""
        node = self.driver.execute_script(script, selector, text)
        if node is None:
            raise Wrong(f"the page shows no {selector} {text}")
        return node

    def click(self, name: str, selector: str, text: str, ready: str) -> None:
        """Clicks, waits until something holds, and notes how long that took in the page."""
        self.timed(name, "click", ready, lambda: self.tap(selector, text))

    def tap(self, selector: str, text: str = "") -> None:
        """Clicks; once more where the page was drawn anew meanwhile."""
        for is_last in (False, False, True):
            node = self.find(selector, text)
            try:
                self.driver.execute_script("arguments[0].scrollIntoView({ block: 'center' })", node)
                node.click()
                return
            except StaleElementReferenceException:
                if is_last:
                    raise

    def timed(self, name: str, event: str, ready: str, act: Callable[[], None]) -> None:
        self.driver.execute_script(TIMED % (event, ready))
        act()
        self.until("window.took !== null")
        self.note_time(name, float(self.value("window.took")))

    def note_time(self, name: str, took: float) -> None:
        self._times.append((name, took))

    def press(self, *keys: str) -> None:
        """Presses keys, as they reach what has the focus."""
        ActionChains(self.driver).send_keys(*keys).perform()

    def texts(self, selector: str) -> List[str]:
        return self.driver.execute_script(
            "return [...document.querySelectorAll(arguments[0])].map((node) => node.textContent.trim())", selector)

    def rows(self, table: str) -> List[List[str]]:
        """The cells of the rows of a table, or of the items of a list."""
        script = """return [...document.querySelectorAll(arguments[0] + " > tbody > tr, " + arguments[0] + " > li")]
            .map((row) => [...row.children].map((cell) => cell.textContent.trim()))"""
        return self.driver.execute_script(script, table)

    def faults(self) -> List[str]:
        """What the browser complains of."""
        return [entry["message"] for entry in self.driver.get_log("browser") if entry["level"] == "SEVERE"]

    def addresses(self) -> List[str]:
        """All that the browser asked for since this was called last."""
        asked = []
        for entry in self.driver.get_log("performance"):
            message = json.loads(entry["message"])["message"]
            if message["method"] == "Network.requestWillBeSent":
                asked.append(message["params"]["request"]["url"])
            elif message["method"] == "Network.webSocketCreated":
                asked.append(message["params"]["url"])
        return asked


IS_STILL = "!document.querySelector('[aria-busy=true]')"
IN_CLASS = f"!document.querySelector('#class').hidden && document.querySelectorAll('#members li').length === 1 && {IS_STILL}"
HAS_DESK = f"document.querySelector('#said').textContent.startsWith('A desk is taken') && {IS_STILL}"
HAS_CHAIN = f"document.querySelectorAll('#chain:not(.is-past) li').length > 1 && !document.querySelector('#object').hidden && {IS_STILL}"


def shows(selector: str, count: int) -> str:
    """What holds in a page that loads nothing and shows `count` of the elements that a selector names."""
    return f"document.querySelectorAll('{selector}').length === {count} && {IS_STILL}"


def session_is_found(window: Window) -> None:
    """Goes to the planted session by clicks alone."""
    window.click("strong classes", "#heap-strengths label:nth-of-type(2)", "", "document.querySelector('[value=STRONG]').checked")
    if not window.value("document.querySelector('#classes [data-sort=name][aria-sort=ascending]')"):
        window.click("sort by name", "#classes th button", "Class", "document.querySelector('#classes [aria-sort=ascending]')")
    window.click("a class", "#classes a", "Session", shows("#members li", 1))
    window.click("an object", "#members a", "", HAS_CHAIN)


def check_served(web: Web, report: Report) -> None:
    connection = http.client.HTTPConnection("127.0.0.1", web.port, timeout=WAIT)
    connection.request("GET", "/")
    answer = connection.getresponse()
    body = answer.read()
    connection.close()
    report.check(answer.status == 200 and body == PAGE.read_bytes(), "the page is served as it stands in the repository")
    report.note(answer.headers["Content-Security-Policy"] == POLICY, "it is served with its policy")
    report.note(body.count(b"\n") <= 1500 and max(map(len, body.split(b"\n"))) <= 400, "it has at most 1,500 lines, none of them minified")


def check_first_view(window: Window, report: Report) -> None:
    for _ in range(5):
        window.driver.get("about:blank")
        window.driver.get(window.address)
        window.until("window.firstView !== undefined")
        window.note_time("the first view", float(window.value("window.firstView")))
        window.until(HAS_DESK)
    counts = window.texts("#heap-strengths .count")
    report.check(len(counts) == 7 and all("object" in text for text in counts), "the heap is shown by strength")


def check_clicks(window: Window, report: Report, shots: Path) -> None:
    """The hunt by clicks, up to the cut."""
    session_is_found(window)
    chain = window.rows("#chain")
    places, targets = [row[1] for row in chain[-4:]], [row[2] for row in chain[-3:]]
    report.check(places[0] == "Listeners.byTopic" and places[2:] == ["java/util/ArrayList.elementData", "element 0"],
                 "the session is found by clicks, and its chain names the static, the list's field and the element")
    names = [target.split("0x")[0] for target in targets]
    report.check(names == ["java/util/ArrayList", "[Ljava/lang/Object;", "Session"], "it names the classes on the way")
    window.click("a cut", "#chain li:last-child button", "Cut", shows("#freed tbody tr", 4))
    freed = {row[0]: row[1:] for row in window.rows("#freed")}
    report.check(freed == {name: ["1", size] for name, size in HELD.items()}, "its cut shows the four objects that became unreachable")
    total, last = window.texts("#freed-total")[0], window.texts("#last-edit")[0]
    report.note(total == "4 objects, 98 bytes." and "4 objects became unreachable, 0 came back." in last, "and their number and bytes")
    report.note("unreachable" in window.texts("#chain-said")[0], "and the session has no chain now")
    window.driver.save_screenshot(str(shots / "cut.png"))


def check_second(web: Web, first: Window, second: Window, report: Report) -> None:
    """Another window beside the first, whose edit it sees."""
    second.until("document.querySelectorAll('#events tbody tr').length === 1")
    row = second.rows("#events")[0]
    report.check(row[2].startswith("cut 0x") and row[3] == "live", "a second window shows the edit")
    report.note(row[4] == "" and "you" not in row[1], "and isn't offered its undo")
    report.note("you" in first.rows("#events")[0][1], "the first knows that the edit is its own")
    first.click("an undo", "#events button", "Undo", shows("#freed tbody tr", 0))
    seconds = second.until("document.querySelectorAll('#events tbody tr').length === 2")
    report.check(seconds <= 3, f"the second sees its undo after {seconds:.1f} seconds")
    moved = first.texts("#last-edit")[0]
    report.note("0 objects became unreachable, 4 came back" in moved, "an undo brings the four objects back")
    first.until(HAS_CHAIN)
    report.note(first.rows("#chain")[-1][2].startswith("Session"), "and the chain")


def check_taken_again(web: Web, first: Window, second: Window, report: Report, times: List[Tuple[str, float]]) -> Window:
    """Marks and a private part stay with a desk; the window that takes it again."""
    second.click("a mark", "#set-mark", "", f"document.querySelector('#since').value === '1' && {IS_STILL}")
    second.click("a private part", "#aside", "", f"!document.querySelector('#private-bar').hidden && {IS_STILL}")
    second.click("clear all weak", "[data-kind=weak]", "", shows("#events tbody tr", 3))
    third = Window(web.address, [])
    third.until("document.querySelector('#lost').open")
    report.check("No desk is free" in third.texts("#lost-title")[0], "a third window is told that no desk is free")
    second.close()
    time.sleep(0.5)
    third.tap("#take-again")
    third.until(shows("#events tbody tr", 3))
    is_private = third.value("!document.querySelector('#private-bar').hidden")
    report.check(bool(is_private) and third.rows("#events")[0][2] == "clearall weak", "a desk is taken again in its private part")
    report.note(third.value("document.querySelectorAll('#since option').length") == 2, "with its mark")
    time.sleep(1.5)
    report.check(len(first.rows("#events")) == 2, "the first window sees nothing of the private part")
    third._times = times
    is_back = f"document.querySelector('#private-bar').hidden && {shows('#events tbody tr', 2)}"
    third.click("back to the board", "#back", "", is_back)
    report.note(third.texts("#freed-total")[0].startswith("0 objects"), "back on the board nothing is left of it")
    return third


def check_keys(window: Window, report: Report) -> None:
    """The hunt by keyboard alone, from the heap to the undo."""
    window.driver.get("about:blank")
    window.driver.get(window.address)
    window.until("window.firstView !== undefined")
    window.until(HAS_DESK)
    events = len(window.rows("#events"))
    window.press("/")
    window.until("document.activeElement.id === 'filter'")
    window.press("Sessio")
    window.until(f"document.querySelector('#filter-said').textContent === '1 class' && {IS_STILL}")
    is_typed = "document.querySelector('#filter').value === 'Session' && document.querySelector('#filter-said').textContent === '1 class'"
    window.timed("a letter of the filter", "input", f"{is_typed} && {IS_STILL}", lambda: window.press("n"))
    window.until(f"document.querySelector('#filter-said').textContent === '1 class' && {IS_STILL}")
    window.press(Keys.ARROW_DOWN)
    window.press(Keys.ENTER)
    window.until(IN_CLASS)
    window.press(Keys.ARROW_DOWN)
    window.press(Keys.ENTER)
    window.until(HAS_CHAIN)
    links = len(window.rows("#chain"))
    window.press(*[Keys.ARROW_DOWN] * links)
    window.until("document.activeElement.closest('#chain li:last-child')")
    window.press("x")
    window.until(shows("#freed tbody tr", 4))
    report.check(len(window.rows("#events")) == events + 1, "by keyboard alone the session is found and its last link cut")
    window.press("u")
    window.until(shows("#freed tbody tr", 0))
    report.check(len(window.rows("#events")) == events + 2, "and the cut undone")
    window.press(Keys.ESCAPE)
    for key, view in zip("hcwlo", ("heap", "class", "whatif", "line", "object")):
        window.press(key)
        window.until(f"document.activeElement.closest('.view') && document.activeElement.closest('.view').id === '{view}'")
        if view == "line":
            window.driver.execute_script("document.activeElement.blur()")
    report.note(True, "a key leads to each view")


def check_words(window: Window, report: Report) -> None:
    """Refusals, the line, and long replies."""
    window.find("#go-id").send_keys("0x1" + Keys.ENTER)
    window.until("!document.querySelector('#alert').hidden")
    text = window.texts("#alert")[0]
    report.note(text == "No object of this dump has that ID. (NoSuchObject)", "a refusal is shown in words with its name")
    window.click("the view for lines", "nav a", "Line", "document.activeElement.id === 'line-text'")
    for line, said in (("find Session", "find Session: 1 line"), ("top", "BadArgument"), ("members c STRONG", "lines")):
        node = window.find("#line-text")
        node.send_keys(line + Keys.ENTER)
        window.until(f"document.querySelector('#line-said').textContent.includes({json.dumps(said)})")
    window.find("#line-text").send_keys(Keys.ARROW_UP)
    report.note(window.value("document.querySelector('#line-text').value") == "members c STRONG", "lines are answered, and called up again")
    window.find("#line-text").clear()
    window.find("#line-text").send_keys("classes UNREACHABLE" + Keys.ENTER)
    window.find("#line-text").send_keys("members t8 STRONG" + Keys.ENTER)
    window.until("document.querySelector('#line-said').textContent.includes('more than 1,000')")
    drawn = window.value("document.querySelector('#line-reply').textContent.split('\\n').length")
    report.note(drawn == 1000, "of a long reply 1,000 lines are drawn")
    window.find("#line-text").send_keys("names off" + Keys.ENTER)
    window.until("document.querySelector('#line-said').textContent.startsWith('names off')")
    window.driver.back()
    window.click("the heap", "nav a", "Heap", f"!document.querySelector('#heap').hidden && {IS_STILL}")
    session_is_found(window)
    report.note(window.rows("#chain")[-1][2].startswith("Session"), "views have their names after names off in a line")


def check_many_rows(window: Window, report: Report) -> None:
    """An array or a class with many references to it."""
    window.click("the class of a chain's array", "#chain li:nth-last-child(2) a", "", HAS_CHAIN)
    window.click("its class", "#facts a", "", f"!document.querySelector('#class').hidden && {IS_STILL}")
    is_next = f"document.querySelector('#members-pager').textContent.startsWith('101') && {IS_STILL}"
    window.click("the next page of members", "#members-pager button", "Next", is_next)
    report.note(len(window.rows("#members")) == 100, "members come by the hundred")
    window.tap("#class-object a")
    window.until(f"!document.querySelector('#object').hidden && document.querySelectorAll('#into li').length === 100 && {IS_STILL}")
    window.tap("#into-pager button")
    window.until(f"document.querySelectorAll('#into li').length > 100 && {IS_STILL}")
    report.note(len(window.rows("#into")) == 1000, "of many references 1,000 are drawn")


def check_elsewhere(web: Web, window: Window, report: Report) -> None:
    """A page of another origin, served beside the program."""
    page = ELSEWHERE.replace("PORT", str(web.port)).encode()
    before = window.rows("#events")

    class Handler(http.server.BaseHTTPRequestHandler):
        def do_GET(self) -> None:
            self.send_response(200)
            self.send_header("Content-Type", "text/html")
            self.end_headers()
            self.wfile.write(page)

        def log_message(self, *_: object) -> None:
            pass

    with http.server.ThreadingHTTPServer(("127.0.0.1", 0), Handler) as server:
        threading.Thread(target=server.serve_forever, daemon=True).start()
        other = Window(f"http://127.0.0.1:{server.server_port}/", [])
        try:
            other.until("Object.keys(window.ends).length >= 5")
            time.sleep(1.5)
            ends = other.value("window.ends")
        finally:
            other.close()
            server.shutdown()
    report.check(ends["127.0.0.1"] == ends["localhost"] == "refused", "a page of another origin gets no desk by a WebSocket")
    report.check(ends["read"] == "refused", "it can't read the page by fetch")
    report.check(window.rows("#events") == before, "lines that it sends by fetch and by a form reach no session")


@contextlib.contextmanager
def markup_dump() -> Iterator[str]:
    """A dump with an object of a class whose name looks like markup."""
    spelled = Format()
    subs = spelled.segment(spelled.root(0x20), spelled.class_dump(0x10), spelled.instance(0x20, 0x10))
    with tempfile.NamedTemporaryFile(suffix=".hprof") as file:
        file.write(spelled.dump(spelled.text(1, MARKUP), spelled.load_class(1, 0x10, 1), subs))
        file.flush()
        yield file.name


def check_markup(program: Program, report: Report) -> None:
    with markup_dump() as dump:
        window = Window(Web(program, dump, 1).address, [])
        try:
            window.until(f"window.firstView !== undefined && {IS_STILL}")
            window.tap("#classes a", MARKUP)
            window.until(IN_CLASS)
            window.tap("#members a")
            window.until(shows("#chain li", 1))
            shown = window.texts("#object-title")[0]
            report.check(shown == MARKUP and window.value("document.images.length") == 0 and window.value("document.title") == "hdesk",
                         "a name that looks like markup is shown as text")
        finally:
            window.close()


def check_looks(window: Window, report: Report, shots: Path) -> None:
    """A screenshot of each view, and whether it fits."""
    session_is_found(window)
    window.click("a cut", "#chain li:last-child button", "Cut", shows("#freed tbody tr", 4))
    window.click("an undo of all", "#undo-last", "", shows("#freed tbody tr", 0))
    window.until(HAS_CHAIN)
    window.click("clear all weak", "[data-kind=weak]", "", f"document.querySelectorAll('#freed tbody tr').length > 0 && {IS_STILL}")
    wide: List[str] = []
    for width in SIZES:
        for is_dark in (False, True):
            window.look(width, is_dark)
            for view in VIEWS:
                window.tap("nav a", "What if" if view == "whatif" else view.capitalize())
                window.until(IS_STILL)
                time.sleep(0.1)
                fits = window.value("document.documentElement.scrollWidth <= innerWidth")
                name = f"{view}-{width}-{'dark' if is_dark else 'light'}"
                if not fits:
                    wide.append(name)
                window.driver.save_screenshot(str(shots / f"{name}.png"))
    window.look(1280, False)
    window.tap("#undo-last")
    window.until(shows("#freed tbody tr", 0))
    report.note(not wide, f"no view is wider than its window {wide if wide else ''}".strip())


def check_end(web: Web, windows: List[Window], report: Report) -> None:
    """Both desks quit, which each page tells, and the log is printed."""
    shown = reversed(windows[0].rows("#events"))
    log = [" ".join(filter(None, [event, who.split(",")[0], edit, state])) for event, who, edit, state, _ in shown]
    for window in windows:
        window.tap("nav a", "Line")
        window.until("document.activeElement.id === 'line-text'")
        window.find("#line-text").send_keys("quit" + Keys.ENTER)
        window.until("document.querySelector('#line-said').textContent.includes('for good')")
        window.find("#line-text").send_keys(Keys.CONTROL + "a")
        window.find("#line-text").send_keys("quit" + Keys.ENTER)
        window.until("document.querySelector('#lost').open")
        report.note("lost" in window.texts("#lost-title")[0], "the end of a desk is told, with an offer to take one again")
    report.check(web.log() == log, "when both have quit, the log is printed as the page showed it")


def check_traffic(web: Web, windows: List[Window], report: Report) -> None:
    asked = [address for window in windows for address in window.addresses()]
    own = (web.address, f"ws://127.0.0.1:{web.port}/desk")
    others = {address for address in asked if not address.startswith(("data:", "about:")) and address not in own}
    report.check(bool(asked) and not others, f"nothing is loaded from elsewhere {sorted(others)[:3] if others else ''}".strip())
    faults = [text for window in windows for text in window.faults() if "/desk' failed" not in text]
    report.check(not faults, f"the browser complains of nothing {faults[:2] if faults else ''}".strip())


def print_times(times: List[Tuple[str, float]], most: int, report: Report) -> None:
    """Prints how long each view and click took, the median where it was measured more than once."""
    taken: Dict[str, List[float]] = {}
    for name, took in times:
        taken.setdefault(name, []).append(took)
    medians = {name: statistics.median(each) for name, each in taken.items()}
    print(f"milliseconds: {', '.join(f'{name} {took:.0f}' for name, took in medians.items())}", flush=True)
    slow = [name for name, took in medians.items() if took > most and name not in LONG]
    report.note(not slow, f"each view and click took at most {most} milliseconds {slow if slow else ''}".strip())


def hunt(given: argparse.Namespace, report: Report) -> None:
    try:
        hunt_in_windows(given, report)
    except WebDriverException as error:
        raise Wrong(f"the browser says {(error.msg or '').splitlines()[:1]}") from error


def hunt_in_windows(given: argparse.Namespace, report: Report) -> None:
    times: List[Tuple[str, float]] = []
    with contextlib.ExitStack() as stack:
        program = stack.enter_context(Program(given.program, given.seconds))
        shots = Path(given.shots or stack.enter_context(tempfile.TemporaryDirectory()))
        shots.mkdir(parents=True, exist_ok=True)
        web = Web(program, given.dump)
        check_served(web, report)
        windows: List[Window] = []
        stack.callback(lambda: [window.close() for window in windows])
        first = Window(web.address, times)
        windows.append(first)
        check_first_view(first, report)
        check_clicks(first, report, shots)
        second = Window(web.address, times)
        windows.append(second)
        check_second(web, first, second, report)
        windows.append(check_taken_again(web, first, second, report, times))
        windows.remove(second)
        check_elsewhere(web, first, report)
        check_keys(first, report)
        check_words(first, report)
        check_many_rows(first, report)
        first.tap("nav a", "Heap")
        check_looks(first, report, shots)
        check_traffic(web, windows, report)
        check_end(web, windows, report)
        check_markup(program, report)
        print_times(times, given.most, report)


def missing() -> List[str]:
    """Those of Debian's packages that aren't there."""
    there = {"chromium": shutil.which("chromium"), "chromium-driver": shutil.which("chromedriver"), "python3-selenium": webdriver}
    return [package for package, found in there.items() if not found]


if __name__ == "__main__":
    taken = words_of(__doc__, seconds=300)
    taken.add_argument("dump", metavar="DUMP", type=readable, help="a dump that tools/real_dump.sh made")
    taken.add_argument(
        "--most", metavar="MS", type=positive, default=200, help="milliseconds of the first view and of a click; 200 if not given"
    )
    taken.add_argument("--shots", metavar="FOLDER", help="where screenshots are left; a temporary folder if not given")
    if missing():
        taken.parse_args()
        print(f"skipped: it needs Debian's packages {', '.join(missing())}")
        sys.exit(0)
    perform(taken, hunt)
