"""The packed page, opened from a file in Chromium, Firefox and WebKit: it opens files, and saves pages to share."""
import base64
import gzip
import json
import os
import shutil
import socket
import subprocess
import tempfile
import time

from browsing.driver import SECONDS, Browser, found
from browsing.page import DROP, Page, is_so
from browsing.pages import TOWNS, address_of, packed_page
from cases.running import Skipped, case

MINI_BROWSERS = [f"/usr/lib/{it}-linux-gnu/webkit2gtk-4.1/MiniBrowser" for it in ("x86_64", "aarch64")]
PREFERENCES = {
    "marionette.port": 0, "browser.shell.checkDefaultBrowser": False, "datareporting.policy.dataSubmissionEnabled": False,
    "toolkit.telemetry.enabled": False, "browser.startup.homepage": "about:blank", "app.update.enabled": False, "ui.prefersReducedMotion": 1,
    "browser.download.folderList": 2, "browser.download.always_ask_before_handling_new_types": False,
}


class Firefox:
    """One window of Firefox without a screen, controlled by the Marionette protocol. A message is a length, a colon, and JSON."""

    def __init__(self, folder):
        program = found("firefox-esr", "firefox")
        profile = f"{folder}/profile"
        os.mkdir(profile)
        with open(f"{profile}/user.js", "w", encoding="utf-8") as it:
            it.writelines(f"user_pref({json.dumps(key)}, {json.dumps(value)});\n" for key, value in PREFERENCES.items())
        words = [program, "--headless", "--marionette", "--no-remote", "--profile", profile, "--width", "1280", "--height", "800"]
        environment = {**os.environ, "HOME": folder, "MOZ_CRASHREPORTER_DISABLE": "1"}
        self.program = subprocess.Popen(words, stdout=subprocess.DEVNULL, stderr=subprocess.DEVNULL, env=environment)
        self.socket, self.count = None, 0
        try:
            self.socket = self.connected(f"{profile}/MarionetteActivePort")
            self.message()
            self.call("WebDriver:NewSession", {"capabilities": {"alwaysMatch": {"acceptInsecureCerts": True}}})
            self.call("WebDriver:SetTimeouts", {"script": SECONDS * 1000})
        except BaseException:
            self.close()
            raise

    def connected(self, path):
        end = time.monotonic() + SECONDS
        while time.monotonic() < end and self.program.poll() is None:
            try:
                with open(path, encoding="utf-8") as it:
                    return socket.create_connection(("127.0.0.1", int(it.read())), timeout=2 * SECONDS)
            except (OSError, ValueError):
                time.sleep(0.1)
        raise AssertionError("Firefox didn't open its port")

    def message(self):
        length, data = b"", b""
        while not length.endswith(b":"):
            length += self.socket.recv(1)
        while len(data) < int(length[:-1]):
            data += self.socket.recv(int(length[:-1]) - len(data))
        return json.loads(data)

    def call(self, name, parameters):
        self.count += 1
        text = json.dumps([0, self.count, name, parameters]).encode()
        self.socket.sendall(b"%d:%s" % (len(text), text))
        _, _, error, result = self.message()
        if error:
            raise AssertionError(f"{name}: {error['message']:.500}")
        return result.get("value") if isinstance(result, dict) else result

    def open(self, address):
        self.call("WebDriver:Navigate", {"url": address})

    def run(self, script, *arguments):
        return self.call("WebDriver:ExecuteScript", {"script": script, "args": list(arguments)})

    wait = Browser.wait

    def picture(self, path):
        with open(path, "wb") as it:
            it.write(base64.b64decode(self.call("WebDriver:TakeScreenshot", {"full": False})))

    def close(self):
        if self.socket:
            self.socket.close()
        self.program.terminate()
        try:
            self.program.wait(SECONDS)
        except subprocess.TimeoutExpired:
            self.program.kill()


class WebKit(Browser):
    """One window of WebKit's MiniBrowser, on a virtual screen."""

    def __init__(self, folder):  # pylint: disable=super-init-not-called
        driver, screen = found("WebKitWebDriver"), found("Xvfb")
        program = next(filter(os.path.exists, MINI_BROWSERS), None)
        if not program:
            raise Skipped("there is no MiniBrowser of WebKitGTK")
        self.session, self.driver, self.screen = None, None, None
        try:
            os.makedirs(f"{folder}/.config/gtk-3.0")
            with open(f"{folder}/.config/gtk-3.0/settings.ini", "w", encoding="ascii") as it:
                it.write("[Settings]\ngtk-enable-animations=false\n")
            read, write = os.pipe()
            self.screen = subprocess.Popen([screen, "-displayfd", str(write), "-screen", "0", "1280x900x24", "-nolisten", "tcp"], pass_fds=[write], stderr=subprocess.DEVNULL)
            os.close(write)
            with open(read, encoding="ascii") as it:
                display = f":{it.readline().strip()}"
            with socket.socket() as it:
                it.bind(("127.0.0.1", 0))
                port = it.getsockname()[1]
            environment = {**os.environ, "DISPLAY": display, "HOME": folder, "XDG_RUNTIME_DIR": folder, "WEBKIT_DISABLE_COMPOSITING_MODE": "1", "GDK_BACKEND": "x11", "LIBGL_ALWAYS_SOFTWARE": "1"}
            self.driver = subprocess.Popen([driver, f"--port={port}", "--host=127.0.0.1"], stdout=subprocess.DEVNULL, stderr=subprocess.DEVNULL, env=environment)
            self.address = f"http://127.0.0.1:{port}"
            self.session = self.begun({"webkitgtk:browserOptions": {"binary": program, "args": ["--automation"]}})
            self.call("POST", "/timeouts", {"script": SECONDS * 1000})
        except BaseException:
            self.close()
            raise

    def begun(self, wanted):
        end = time.monotonic() + SECONDS
        while True:
            try:
                return self.call("POST", "/session", {"capabilities": {"alwaysMatch": wanted}})["sessionId"]
            except OSError:
                if time.monotonic() > end:
                    raise
                time.sleep(0.2)

    def run(self, script, *arguments):
        """Runs a script as Browser does. (This driver doesn't wait for promises.)"""
        waiting = f"const done = arguments[arguments.length - 1]; (async function () {{ {script} }}).apply(null, arguments).then(it => done(it === undefined ? null : it), it => done(`failed: ${{it}}`))"
        return self.call("POST", "/execute/async", {"script": waiting, "args": list(arguments)})

    def close(self):
        try:
            if self.session:
                self.call("DELETE", "")
        finally:
            for it in filter(None, (self.driver, self.screen)):
                it.terminate()
                it.wait(SECONDS)


class Engine:
    """A browser with a packed page from a file."""

    def __init__(self, browser, room):
        self.browser, self.room = browser, room

    def open(self, address):
        self.browser.open("about:blank")
        self.browser.open(address)
        self.settle()

    def settle(self):
        self.browser.wait("document.body && document.body.ariaBusy === 'false' && document.getElementById('picture').ariaBusy !== 'true'")
        self.browser.run("return new Promise(done => requestAnimationFrame(() => requestAnimationFrame(() => done(true))))")

    def shown(self):
        return [self.browser.run("return document.getElementById(arguments[0]).textContent", it) for it in ("error", "points", "total")]

    def expect(self, points, total):
        self.settle()
        is_so(self.shown(), ["", points, total])

    def drop(self, name, text):
        self.browser.run(DROP, [(name, base64.b64encode(text).decode())])
        self.settle()

    def saved(self, name):
        """The bytes of the file that a button saves."""
        self.browser.run("window.kept = null; const real = URL.createObjectURL; URL.createObjectURL = it => { window.kept = it; return real.call(URL, it); };"
                         "document.getElementById(arguments[0]).click()", f"save-{name.replace('.', '-')}")
        self.browser.wait("window.kept !== null || document.getElementById('error').textContent")
        is_so(self.shown()[0], "")
        script = "return new Promise(done => { const it = new FileReader(); it.onload = () => done(it.result.split(',')[1]); it.readAsDataURL(window.kept); })"
        return base64.b64decode(self.browser.run(script))


def opens_what_people_have(engine):
    """The page opens dropped files, a pasted table, an address with points, and data inside the page."""
    with open(TOWNS, "rb") as it:
        towns = it.read()
    page = packed_page(engine.room)
    engine.open(f"file://{page}")
    engine.expect("67", "3,977.19 km")
    engine.drop("towns.csv", towns)
    engine.expect("22", "4,501.454 km")
    engine.drop("towns.csv.gz", gzip.compress(towns))
    engine.expect("22", "4,501.454 km")
    is_so(engine.saved("clusters.csv").decode().splitlines()[0], f"{towns.decode().splitlines()[0]},cluster")
    engine.browser.run("document.getElementById('pasted').value = '0,0\\n3,4\\n'; document.getElementById('take').click()")
    engine.browser.wait("document.getElementById('points').textContent === '2'", seconds=10)
    engine.expect("2", "5")
    engine.open(f"file://{page}" + address_of(b"x,y,name\n0,0,a\n6,8,b\n"))
    engine.expect("2", "10")
    engine.open(f"file://{packed_page(engine.room, data=('towns.csv.gz', gzip.compress(towns)))}")
    engine.expect("22", "4,501.454 km")
    # each figure has its label
    labels = "return [...document.querySelectorAll('#side dt')].map(it => [it.textContent, getComputedStyle(it).display !== 'none', getComputedStyle(it.nextElementSibling).display !== 'none'])"
    is_so([it[0] for it in engine.browser.run(labels) if it[1] and it[2]], ["Points", "Edges", "Total", "Longest", "Longest kept", "Time in ms", "Computed by"])


def sends_pages_on(engine):
    """A page that was saved opens with the same points and clusters, and can be saved again."""
    engine.open(f"file://{packed_page(engine.room)}")
    engine.drop("named.csv", b"name,x,y\n</script>,0,0\nb,3,4\nc,30,40\nd,31,40\n")
    engine.browser.run("const it = document.getElementById('clusters'); it.value = 3; it.dispatchEvent(new Event('change'))")
    for turn in range(2):
        path = f"{engine.room}/sent {turn}.html"
        content = engine.saved("boruvka.html")
        is_so((content[:15].lower(), content.count(b'<script type="application/json" id="data">')), (b"<!doctype html>", 1))
        with open(path, "wb") as it:
            it.write(content)
        engine.open(f"file://{path}")
        engine.expect("4", "51")
        is_so(engine.browser.run("return document.getElementById('clusters').value"), "3")
        is_so(engine.saved("clusters.csv"), b"name,x,y,cluster\n</script>,0,0,2\nb,3,4,3\nc,30,40,1\nd,31,40,1\n")
    is_so(engine.browser.run("return document.getElementById('linkline').hidden"), True)


def says_whether_it_makes_films(engine):
    """Either the page saves a film, or it says before the click that it can't."""
    engine.open(f"file://{packed_page(engine.room)}")
    note, is_off = engine.browser.run("return [document.getElementById('nofilm').textContent, document.getElementById('save-rounds-webm').disabled]")
    is_so(is_off, note != "")
    if not note:
        content = engine.saved("rounds.webm")
        is_so((content[:4], len(content) > 10_000), (b"\x1a\x45\xdf\xa3", True))
    return note or "a film"


CHECKS = [opens_what_people_have, sends_pages_on, says_whether_it_makes_films]


def tried(make, room):
    """Runs all of these checks in a new browser."""
    if not os.path.exists(Page.module):
        raise Skipped("the module isn't built: `make wasm` builds it")
    folder = tempfile.mkdtemp(prefix="boruvka-engine-")
    try:
        browser = make(folder)
        try:
            notes = [it(Engine(browser, room)) for it in CHECKS]
            by = browser.run("return document.getElementById('by').textContent")
            if Page.pictures:
                browser.picture(f"{Page.pictures}/engine_{make.__name__.lower()}.png")
            return ", ".join([by, *filter(None, notes)])
        finally:
            browser.close()
    finally:
        shutil.rmtree(folder, ignore_errors=True)


def Chromium(folder):
    """The browser of the other cases."""
    os.mkdir(f"{folder}/saved")
    browser = Browser(f"{folder}/saved")
    browser.devtools("Emulation.setEmulatedMedia", features=[{"name": "prefers-reduced-motion", "value": "reduce"}])
    return browser


@case
def a_file_in_chromium(room):
    return tried(Chromium, room)


@case
def a_file_in_firefox(room):
    return tried(Firefox, room)


@case
def a_file_in_webkit(room):
    return tried(WebKit, room)
