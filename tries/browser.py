"""A real browser, Chromium, by its WebDriver over plain HTTP: what tries/page_browsed.py looks at the page with."""
import base64
import json
import os
import shutil
import subprocess
import tempfile
import time
import urllib.error
import urllib.request

from under_test import free_port

DRIVERS, BROWSERS = ("chromedriver",), ("chromium", "chromium-browser", "google-chrome")
KEYS = {"Enter": "\ue007", "Space": " ", "Escape": "\ue00c", "Tab": "\ue004", "Down": "\ue015", "Up": "\ue013",
        "Left": "\ue012", "Right": "\ue014",
        "Home": "\ue011", "End": "\ue010", "Shift": "\ue008"}
ELEMENT = "element-6066-11e4-a52e-4f735466cecf"


class Failed(Exception):
    """What the browser says that it can't do."""


def found(names):
    path = next((shutil.which(name) for name in names if shutil.which(name)), None)
    if path is None:
        raise Failed(f"there is no {names[0]}: apt-get install chromium chromium-driver")
    return path


class Driver:
    """The program chromedriver; each `browser()` is a window of its own."""

    def __init__(self):
        program = found(DRIVERS)
        self.port = free_port()
        self.folder, self.sessions = tempfile.mkdtemp(prefix="page-browser-"), []
        self.process = subprocess.Popen([program, f"--port={self.port}", "--log-level=OFF"], stdin=subprocess.DEVNULL,
                                        stdout=subprocess.DEVNULL,
                                        stderr=subprocess.DEVNULL, env={**os.environ, "TMPDIR": self.folder})

    def __enter__(self):
        for _ in range(100):
            try:
                self.ask("GET", "/status")
                return self
            except OSError:
                time.sleep(0.1)
        raise Failed("chromedriver did not start in ten seconds")

    def __exit__(self, *_):
        for path in self.sessions:
            try:
                self.ask("DELETE", path)
            except (Failed, OSError):
                pass
        self.process.terminate()
        self.process.wait(10)
        shutil.rmtree(self.folder, ignore_errors=True)

    def ask(self, method, path, said=None):
        request = urllib.request.Request(f"http://127.0.0.1:{self.port}{path}", method=method,
                                         data=None if said is None else json.dumps(said).encode(),
                                         headers={"Content-Type": "application/json"})
        try:
            with urllib.request.urlopen(request, timeout=60) as answer:
                return json.load(answer)["value"]
        except urllib.error.HTTPError as fault:
            raise Failed(json.load(fault)["value"].get("message", "")[:400]) from None

    def browser(self):
        options = {"binary": found(BROWSERS), "args": ["--headless=new", "--no-sandbox", "--disable-gpu",
                                                       "--disable-dev-shm-usage", "--hide-scrollbars",
                                                       "--force-color-profile=srgb",
                                                       f"--user-data-dir={tempfile.mkdtemp(dir=self.folder)}"]}
        given = {"alwaysMatch": {"browserName": "chrome", "goog:chromeOptions": options,
                                 "goog:loggingPrefs": {"browser": "ALL"}}}
        path = "/session/" + self.ask("POST", "/session", {"capabilities": given})["sessionId"]
        self.sessions.append(path)
        return Browser(self, path)


class Browser:
    def __init__(self, driver, path):
        self.driver, self.path = driver, path

    def post(self, path, said):
        return self.driver.ask("POST", self.path + path, said)

    def go(self, url):
        self.post("/url", {"url": url})

    def script(self, text, *given):
        """What a function body gives in the page."""
        return self.post("/execute/sync", {"script": text, "args": list(given)})

    def cdp(self, command, **given):
        return self.post("/goog/cdp/execute", {"cmd": command, "params": given})

    def size(self, wide, high, scale=1):
        self.cdp("Emulation.setDeviceMetricsOverride", width=wide, height=high, deviceScaleFactor=scale, mobile=False)

    def dark(self, is_dark):
        self.cdp("Emulation.setEmulatedMedia", features=[{"name": "prefers-color-scheme",
                                                          "value": "dark" if is_dark else "light"}])

    def find(self, selector):
        return self.post("/element", {"using": "css selector", "value": selector})[ELEMENT]

    def click(self, selector):
        self.post(f"/element/{self.find(selector)}/click", {})

    def press(self, *keys):
        """Keys of the keyboard, one behind another, wherever the focus is."""
        moves = [{"type": kind, "value": KEYS.get(key, key)} for key in keys for kind in ("keyDown", "keyUp")]
        self.post("/actions", {"actions": [{"type": "key", "id": "keys", "actions": moves}]})

    def wait(self, text, *given, seconds=8):
        """Waits until a function body gives what is true; gives it, or what is false at the end."""
        until = time.monotonic() + seconds
        while True:
            it = self.script(text, *given)
            if it or time.monotonic() > until:
                return it
            time.sleep(0.05)

    def shot(self, path):
        with open(path, "wb") as file:
            file.write(base64.b64decode(self.driver.ask("GET", self.path + "/screenshot")))

    def log(self):
        """What the page said on its console."""
        return [f"{it['level']}: {it['message']}" for it in self.post("/se/log", {"type": "browser"})]
