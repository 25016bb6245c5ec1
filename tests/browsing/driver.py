"""Chromium without a screen, controlled by the WebDriver protocol."""
import base64
import json
import os
import re
import shutil
import subprocess
import time
import urllib.error
import urllib.request

from cases.running import Skipped

SECONDS = 60
# (Chromium has no sandbox for root)
ARGUMENTS = ["--headless=new", "--disable-gpu", "--disable-dev-shm-usage", "--window-size=1400,900", "--no-first-run"]
ELEMENT = "element-6066-11e4-a52e-4f735466cecf"


def found(*names):
    path = next(filter(None, map(shutil.which, names)), None)
    if not path:
        raise Skipped(f"there is no {names[0]}")
    return path


class Browser:
    """One window, with a folder for downloads."""

    def __init__(self, downloads):
        program, driver = found("chromium", "chromium-browser", "google-chrome"), found("chromedriver")
        self.downloads, self.session = downloads, None
        self.driver = subprocess.Popen([driver, "--port=0"], stdout=subprocess.PIPE, stderr=subprocess.DEVNULL, text=True)
        try:
            line = next(filter(None, (re.search(r"successfully on port (\d+)", it) for it in self.driver.stdout)))
            self.address = f"http://127.0.0.1:{line[1]}"
            options = {"binary": program, "args": ARGUMENTS + (["--no-sandbox"] if os.getuid() == 0 else [])}
            wanted = {"browserName": "chrome", "goog:chromeOptions": options, "goog:loggingPrefs": {"browser": "ALL"}}
            self.session = self.call("POST", "/session", {"capabilities": {"alwaysMatch": wanted}})["sessionId"]
        except BaseException:
            self.close()
            raise
        self.devtools("Browser.setDownloadBehavior", behavior="allow", downloadPath=downloads)
        self.call("POST", "/timeouts", {"script": SECONDS * 1000})

    def close(self):
        try:
            if self.session:
                self.call("DELETE", "")
        finally:
            self.driver.terminate()
            self.driver.wait(SECONDS)
            self.driver.stdout.close()

    def call(self, method, path, body=None):
        """Sends a command to the driver, and returns its value."""
        within = f"/session/{self.session}" if self.session else ""
        data = json.dumps(body or {}).encode() if method == "POST" else None
        request = urllib.request.Request(self.address + within + path, data, {"Content-Type": "application/json"}, method=method)
        try:
            with urllib.request.urlopen(request, timeout=2 * SECONDS) as it:
                return json.load(it)["value"]
        except urllib.error.HTTPError as error:
            raise AssertionError(f"{path}: {json.load(error)['value']['message']:.500}") from None

    def devtools(self, command, **parameters):
        return self.call("POST", "/goog/cdp/execute", {"cmd": command, "params": parameters})

    def open(self, address):
        self.call("POST", "/url", {"url": address})

    def run(self, script, *arguments):
        """Runs the body of a function in the page, and returns its value or that of its promise."""
        return self.call("POST", "/execute/sync", {"script": script, "args": list(arguments)})

    def wait(self, script, *arguments, seconds=SECONDS):
        """Waits until this expression is true in the page."""
        end = time.monotonic() + seconds
        while not self.run(f"return {script}", *arguments):
            if time.monotonic() > end:
                raise AssertionError(f"after {seconds} s this is still false: {script}")
            time.sleep(0.02)

    def element(self, name):
        return self.call("POST", "/element", {"using": "css selector", "value": f"#{name}"})[ELEMENT]

    def click(self, name):
        self.call("POST", f"/element/{self.element(name)}/click")

    def write(self, name, text):
        """Types into an element, or passes paths to an input of files."""
        self.call("POST", f"/element/{self.element(name)}/value", {"text": text})

    def press(self, *keys):
        """Presses and releases keys. The keys of a tuple are pressed together."""
        actions = []
        for key in keys:
            chord = key if isinstance(key, tuple) else (key,)
            actions += [{"type": "keyDown", "value": it} for it in chord] + [{"type": "keyUp", "value": it} for it in reversed(chord)]
        self.call("POST", "/actions", {"actions": [{"type": "key", "id": "keys", "actions": actions}]})

    def click_at(self, name, x, y):
        """Clicks at this offset from the upper left corner of an element, in pixels."""
        left, top = self.run("const it = document.getElementById(arguments[0]).getBoundingClientRect(); return [it.left, it.top]", name)
        move = {"type": "pointerMove", "x": round(left + x), "y": round(top + y), "duration": 0}
        actions = [move, {"type": "pointerDown", "button": 0}, {"type": "pointerUp", "button": 0}]
        self.call("POST", "/actions", {"actions": [{"type": "pointer", "id": "mouse", "actions": actions}]})

    def picture(self, path):
        with open(path, "wb") as it:
            it.write(base64.b64decode(self.call("GET", "/screenshot")))

    def complaints(self):
        """The errors that the page has logged since the last call."""
        return [it["message"] for it in self.call("POST", "/se/log", {"type": "browser"}) if it["level"] == "SEVERE"]

    def downloaded(self, name, seconds=SECONDS):
        """The bytes of a file that the page saved. The file is removed."""
        path, end = f"{self.downloads}/{name}", time.monotonic() + seconds
        while not os.path.exists(path) or os.path.exists(f"{path}.crdownload"):
            if time.monotonic() > end:
                raise AssertionError(f"{name} wasn't saved: {os.listdir(self.downloads)}")
            time.sleep(0.05)
        with open(path, "rb") as it:
            content = it.read()
        os.unlink(path)
        return content
