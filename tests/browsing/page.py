"""The page in Chromium, from a local server: what it shows and saves."""
import base64
import functools
import http.server
import os
import random
import shutil
import sys
import tempfile
import threading

from browsing.driver import SECONDS, Browser
from cases.running import ROOT, Components, Program, Skipped, forest_of, forest_text, ran

WEB = f"{ROOT}/web"
HERE = os.path.dirname(os.path.realpath(__file__))
SHOWN = ("points", "size", "total", "heaviest", "kept", "say")

DROP = """
const data = new DataTransfer();
for (const [name, text] of arguments[0]) data.items.add(new File([Uint8Array.from(atob(text), it => it.charCodeAt(0))], name));
for (const kind of ['dragover', 'drop']) document.body.dispatchEvent(new DragEvent(kind, { dataTransfer: data, bubbles: true, cancelable: true }));
"""
SET = """
const it = document.getElementById(arguments[0]);
it.value = arguments[1];
for (const kind of ['input', 'change']) it.dispatchEvent(new Event(kind, { bubbles: true }));
"""


# (the page's own listener runs before this one)
ANSWER = """
const dialog = document.getElementById(arguments[0]);
return new Promise(done => {
    dialog.addEventListener('close', () => setTimeout(done), { once: true });
    dialog.querySelector(`button[value='${arguments[1]}']`).click();
});
"""


class Quiet(http.server.SimpleHTTPRequestHandler):
    """Serves the files of a folder, without caching and without a log."""

    def end_headers(self):
        self.send_header("Cache-Control", "no-store")
        super().end_headers()

    def log_message(self, *_words):
        pass


class Server(http.server.ThreadingHTTPServer):
    """A server that ignores aborted requests, as when a worker is stopped."""

    def handle_error(self, *request):
        if not isinstance(sys.exc_info()[1], ConnectionError):
            super().handle_error(*request)


def quick(is_quick, note):
    """The note about a time. A slow time fails with --strict. Otherwise the machine may be busy, and the note says `slow`."""
    if is_quick:
        return note
    if Page.strict:
        raise AssertionError(note)
    return f"slow: {note}"


def large():
    """Skips a case that takes minutes and much memory, unless --strict is given."""
    if not Page.strict:
        raise Skipped("large inputs are left to `make web-test`")


class Page:
    """One browser and one server for all cases. Each case opens the page again."""

    module = f"{ROOT}/crates/boruvka_within/out/boruvka.wasm"
    pictures = None
    strict = False
    now = None

    def __init__(self):
        if not os.path.exists(Page.module):
            raise Skipped("the module isn't built: `make wasm` builds it")
        self.folder = tempfile.mkdtemp(prefix="boruvka-page-")
        self.server = None
        try:
            os.mkdir(f"{self.folder}/saved")
            self.browser = Browser(f"{self.folder}/saved")
            shutil.copytree(WEB, f"{self.folder}/web")
            shutil.copy(Page.module, f"{self.folder}/web/boruvka.wasm")
            shutil.copy(f"{HERE}/fast_kruskal.js", f"{self.folder}/web")
            handler = functools.partial(Quiet, directory=f"{self.folder}/web")
            self.server = Server(("127.0.0.1", 0), handler)
        except BaseException:
            shutil.rmtree(self.folder)
            raise
        threading.Thread(target=self.server.serve_forever, daemon=True).start()
        self.address = f"http://127.0.0.1:{self.server.server_port}/index.html"

    @classmethod
    def opened(cls, more="", **looks):
        """Opens the page at its address with `more`. The other arguments go to `look`."""
        cls.now = cls.now or cls()
        page = cls.now
        for name in os.listdir(page.browser.downloads):
            os.unlink(f"{page.browser.downloads}/{name}")
        page.look(**looks)
        page.browser.open("about:blank")
        page.browser.open(page.address + more)
        page.settle()
        return page

    def look(self, width=1280, height=800, scheme="light", motion="reduce", sharp=1):
        """Sets the size of the window, the colour scheme, and whether the user prefers less motion."""
        self.browser.devtools("Emulation.setDeviceMetricsOverride", width=width, height=height, deviceScaleFactor=sharp, mobile=width < 500)
        features = [{"name": "prefers-color-scheme", "value": scheme}, {"name": "prefers-reduced-motion", "value": motion}]
        self.browser.devtools("Emulation.setEmulatedMedia", features=features)

    @classmethod
    def cleared(cls):
        """The page without points."""
        page = cls.opened()
        page.click("clear")
        return page

    @classmethod
    def end(cls):
        if cls.now:
            cls.now.browser.close()
            cls.now.server.shutdown()
            cls.now.server.server_close()
            shutil.rmtree(cls.now.folder)
            cls.now = None

    def settle(self, seconds=SECONDS):
        """Waits until the page is idle and the picture is drawn."""
        self.browser.wait("document.body?.ariaBusy === 'false'", seconds=seconds)
        self.browser.wait("document.getElementById('picture').ariaBusy !== 'true'", seconds=seconds)

    def click(self, name):
        self.browser.run("document.getElementById(arguments[0]).click()", name)
        self.frames()

    def set(self, name, value):
        self.browser.run(SET, name, str(value))
        self.frames()

    def value(self, name):
        return self.browser.run("return document.getElementById(arguments[0]).value", name)

    def text(self, name):
        return self.browser.run("return document.getElementById(arguments[0]).textContent", name)

    def shown(self, *names):
        return [self.text(it) for it in names or SHOWN]

    def error(self):
        """The current error as `line N: kind (value)`. The text on the page must not contain the kind."""
        kind, line, what = self.browser.run("const { kind, line, what } = document.getElementById('error').dataset; return [kind, line, what]")
        if kind and kind in self.text("error"):
            raise AssertionError(f"an internal name is shown: {self.text('error')}")
        return f"{f'line {line}: ' if line not in ('0', '', None) else ''}{kind}{f' ({what})' if what else ''}"

    def ask(self, *files):
        """Drops files, and waits for the dialog that asks about them."""
        self.browser.run(DROP, [(name, base64.b64encode(text).decode()) for name, text in files])
        self.browser.wait("document.querySelector('dialog[open]')", seconds=10)

    def answer(self, dialog, value="take"):
        """Presses a button of a dialog, and waits until the page has handled it."""
        self.browser.run(ANSWER, dialog, value)
        self.settle()

    def drop(self, *files, seconds=SECONDS):
        """Drops files, each a name and its bytes."""
        self.browser.run(DROP, [(name, base64.b64encode(text).decode()) for name, text in files])
        self.settle(seconds)

    def saved(self, name):
        """The file that a button saves. It is pressed by the driver, because scripts may save only ten files."""
        self.click("save")
        self.browser.click(f"save-{name.replace('.', '-')}")
        self.settle()
        content = self.browser.downloaded(name)
        self.browser.run("document.getElementById('saving').close()")
        return content

    def frames(self):
        """Waits for two frames, and then until the page is idle."""
        self.browser.run("return new Promise(done => requestAnimationFrame(() => requestAnimationFrame(done)))")
        self.settle()

    def keep(self, name):
        """Takes a screenshot if --pictures is given."""
        if self.pictures:
            os.makedirs(self.pictures, exist_ok=True)
            self.browser.picture(f"{self.pictures}/{name}.png")

    def expect(self, **wanted):
        """Checks these texts, and that there is neither an error on the page nor one in the log."""
        self.frames()
        is_so(dict(zip(wanted, self.shown(*wanted))), wanted)
        is_so((self.text("error"), self.browser.complaints()), ("", []))


def is_so(found, wanted):
    if found != wanted:
        raise AssertionError(f"wanted {wanted!r:.900}\n    found  {found!r:.900}")


def arcs_of(text):
    """The number of vertices of a .gr text, and its arcs (U, V, W)."""
    rows = [it.split() for it in text.decode().splitlines()]
    (n,) = [int(it[2]) for it in rows if it and it[0] == "p"]
    return n, [tuple(map(int, it[1:])) for it in rows if it and it[0] == "a"]


def forest_by_program(text):
    """The program's forest of a .gr text, or that of Kruskal's algorithm if the program isn't built."""
    if os.access(Program.path, os.X_OK):
        status, output, errors = ran(["--plain"], text)
        is_so((status, errors), (0, b""))
        return output
    n, arcs = arcs_of(text)
    return forest_text(n, forest_of(n, arcs))


def clusters_of(forest, count):
    """A label of the cluster of each vertex, if the forest in this text is cut into `count` clusters."""
    n, arcs = arcs_of(forest)
    components = Components(n)
    for u, v, _ in arcs[: n - count]:
        components.join(u, v)
    return [components.root(v) for v in range(1, n + 1)]


def is_same_partition(found, wanted):
    """Checks that both lists of labels describe the same clusters."""
    is_so(len(found), len(wanted))
    pairs = set(zip(found, wanted))
    is_so((len(pairs), len(pairs)), (len(set(found)), len(set(wanted))))


def drawn_points(seed, n, most=1000):
    """n random points, some of them equal, and their table."""
    draw = random.Random(seed)
    rows = [(draw.randint(0, 10 * most) / 10, draw.randint(0, 10 * most) / 10) for _ in range(n)]
    for i in range(0, n, 50):
        rows[i] = rows[i // 2]
    return rows, "".join(f"{x},{y}\n" for x, y in rows).encode()
