"""A browser to test pages in: Chromium by its driver, asked over the WebDriver protocol. Debian: chromium, chromium-driver."""
import base64
import http.client
import json
import os
import re
import shutil
import subprocess
import tempfile

DRIVER, CHROMIUM = shutil.which("chromedriver"), shutil.which("chromium") or shutil.which("google-chrome")
ELEMENT = "element-6066-11e4-a52e-4f735466cecf"  # how the protocol names an element
LEFT = 0  # button of the mouse


class Browser:
    """A window of a headless Chromium; `close` ends it and its driver."""

    def __init__(self, wide=1280, high=900):
        self.folder = tempfile.TemporaryDirectory()
        self.driver = subprocess.Popen([DRIVER, "--port=0"], stdout=subprocess.PIPE, stderr=subprocess.DEVNULL, text=True)
        try:
            started = next(found for found in (re.search(r"started successfully on port (\d+)", row) for row in self.driver.stdout) if found)
            self.port, self.session = int(started[1]), ""
            words = ["--headless=new", f"--window-size={wide},{high}", f"--user-data-dir={self.folder.name}/user", "--disable-gpu"]
            words += ["--no-sandbox"] if os.geteuid() == 0 else []  # which Chromium does not take from root
            chrome = {"binary": CHROMIUM, "args": words, "prefs": {"download.default_directory": self.folder.name}}
            self.session = "/session/" + self.ask("POST", "/session", {"capabilities": {"alwaysMatch": {"goog:chromeOptions": chrome}}})["sessionId"]
        except BaseException:
            self.close()
            raise

    def ask(self, method, path, said=None):
        connection = http.client.HTTPConnection("127.0.0.1", self.port, timeout=120)
        connection.request(method, path, None if said is None else json.dumps(said), {"Content-Type": "application/json"})
        value = json.loads(connection.getresponse().read())["value"]
        connection.close()
        if isinstance(value, dict) and "error" in value:
            raise RuntimeError(f"{method} {path}: {value['message']}")
        return value

    def close(self):
        try:
            if getattr(self, "session", ""):
                self.ask("DELETE", self.session)
        finally:
            self.driver.terminate()
            self.driver.wait()
            self.driver.stdout.close()
            self.folder.cleanup()

    def go(self, address):
        self.ask("POST", self.session + "/url", {"url": address})

    def run(self, script, *arguments):
        """What a script of the page answers; one that answers a promise is waited for."""
        return self.ask("POST", self.session + "/execute/sync", {"script": script, "args": list(arguments)})

    def element(self, selector):
        return self.ask("POST", self.session + "/element", {"using": "css selector", "value": selector})

    def middle(self, selector):
        """The middle of an element, in whole pixels of the window."""
        box = self.run("const b = arguments[0].getBoundingClientRect(); return [b.left + b.width / 2, b.top + b.height / 2]", self.element(selector))
        return [round(x) for x in box]

    def mouse(self, *actions):
        self.ask("POST", self.session + "/actions", {"actions": [{"type": "pointer", "id": "mouse", "parameters": {"pointerType": "mouse"}, "actions": list(actions)}]})

    def drag(self, start, *ways):
        """From a place through others, each so many pixels on from the last; the button goes up at the end."""
        moves = [{"type": "pointerMove", "duration": 20, "origin": "pointer", "x": x, "y": y} for x, y in ways]
        self.mouse(to(*start), {"type": "pointerDown", "button": LEFT}, *moves, {"type": "pointerUp", "button": LEFT})

    def click(self, x, y):
        self.mouse(to(x, y), {"type": "pointerDown", "button": LEFT}, {"type": "pointerUp", "button": LEFT})

    def wheel(self, x, y, by):
        scroll = {"type": "scroll", "x": x, "y": y, "deltaX": 0, "deltaY": by, "duration": 0}
        self.ask("POST", self.session + "/actions", {"actions": [{"type": "wheel", "id": "wheel", "actions": [scroll]}]})

    def key(self, selector, words):
        self.ask("POST", f"{self.session}/element/{self.element(selector)[ELEMENT]}/value", {"text": words})

    def picture(self):
        """A PNG of the window."""
        return base64.b64decode(self.ask("GET", self.session + "/screenshot"))


def to(x, y):
    return {"type": "pointerMove", "duration": 0, "origin": "viewport", "x": round(x), "y": round(y)}
