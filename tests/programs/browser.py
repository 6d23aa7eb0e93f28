"""Chromium and Firefox without a window, driven by what Debian has: chromedriver by WebDriver, and Firefox by Marionette."""
import base64
import json
import os
import pathlib
import shutil
import signal
import socket
import subprocess
import tempfile
import time
import urllib.request

SECONDS = 60
SIZE = (1280, 1900)
ELEMENT = "element-6066-11e4-a52e-4f735466cecf"
END, ARROW_RIGHT, ENTER, CONTROL = "\uE010", "\uE014", "\uE007", "\uE009"


def free_port():
    with socket.socket() as one:
        one.bind(("127.0.0.1", 0))
        return one.getsockname()[1]


def until(attempt):
    """The first result of `attempt` that is not None."""
    end = time.monotonic() + SECONDS
    while time.monotonic() < end:
        found = attempt()
        if found is not None:
            return found
        time.sleep(0.05)
    raise TimeoutError


class Browser:
    """What both have: a process that ends with the block, and commands of WebDriver."""

    @classmethod
    def missing(cls):
        """The tools of this browser that are not installed."""
        return [names[0] for names in cls.tools if not any(map(shutil.which, names))]

    def __init__(self, *command):
        self.profile = tempfile.TemporaryDirectory(ignore_cleanup_errors=True)
        self.downloads = pathlib.Path(self.profile.name, "downloads")
        words = [word.replace("PROFILE", self.profile.name) for word in command]
        with open(pathlib.Path(self.profile.name, "said"), "wb") as said:
            self.process = subprocess.Popen(words, stdout=said, stderr=said, start_new_session=True,
                                            env={**os.environ, "HOME": self.profile.name})

    def __enter__(self):
        return self

    def __exit__(self, *_):
        os.killpg(self.process.pid, signal.SIGKILL)
        self.process.wait()
        self.profile.cleanup()

    def run(self, script, *arguments):
        return self.command("ExecuteScript", "execute/sync", {"script": script, "args": list(arguments)})

    def run_async(self, script, *arguments):
        return self.command("ExecuteAsyncScript", "execute/async", {"script": script, "args": list(arguments)})

    def downloaded(self, name):
        """The bytes of the file that the browser saves under this name. It is removed."""
        path = self.downloads / name
        # A part of a file that is still saved is under another name, beside it in Firefox.
        until(lambda: path.exists() and path.stat().st_size and len(list(self.downloads.iterdir())) == 1 or None)
        found = path.read_bytes()
        path.unlink()
        return found

    def find(self, selector):
        found = self.command("FindElement", "element", {"using": "css selector", "value": selector})
        return (found.get("value") or found if "value" in found else found)[ELEMENT]

    def click(self, selector):
        element = self.find(selector)
        self.command("ElementClick", f"element/{element}/click", {"id": element})

    def press(self, selector, keys):
        element = self.find(selector)
        self.command("ElementSendKeys", f"element/{element}/value", {"id": element, "text": keys})

    def drag(self, start, end):
        """Presses the button of the mouse at one place of the window, and releases it at another."""
        def move(place):
            return {"type": "pointerMove", "x": int(place[0]), "y": int(place[1]), "duration": 20, "origin": "viewport"}
        steps = [move(start), {"type": "pointerDown", "button": 0}, move(end), {"type": "pointerUp", "button": 0}]
        self.command("PerformActions", "actions", {"actions": [
            {"type": "pointer", "id": "mouse", "parameters": {"pointerType": "mouse"}, "actions": steps}]})


class Chromium(Browser):
    name = "Chromium"
    tools = (("chromium",), ("chromedriver",))

    def __init__(self):
        self.port = free_port()
        super().__init__("chromedriver", f"--port={self.port}")
        self.session = ""
        words = ["--headless=new", "--no-sandbox", "--disable-gpu", f"--window-size={SIZE[0]},{SIZE[1]}", f"--user-data-dir={self.profile.name}/data"]
        options = {"args": words, "binary": shutil.which("chromium"), "prefs": {"download.default_directory": str(self.downloads)}}
        wanted = {"browserName": "chrome", "goog:chromeOptions": options, "goog:loggingPrefs": {"browser": "ALL"},
                  "timeouts": {"script": SECONDS * 1000}}
        until(self.is_ready)
        self.session = "/" + self.post("/session", {"capabilities": {"alwaysMatch": wanted}})["sessionId"]

    def is_ready(self):
        try:
            with urllib.request.urlopen(f"http://127.0.0.1:{self.port}/status", timeout=5) as answer:
                return json.load(answer)["value"]["ready"] or None
        except OSError:
            return None

    def post(self, path, words):
        request = urllib.request.Request(f"http://127.0.0.1:{self.port}{path}", json.dumps(words).encode(), {"Content-Type": "application/json"})
        try:
            with urllib.request.urlopen(request, timeout=2 * SECONDS) as answer:
                return json.load(answer)["value"]
        except urllib.error.HTTPError as error:
            raise RuntimeError(error.read().decode()[:500]) from None

    def command(self, _, path, words):
        return self.post(f"/session{self.session}/{path}", words)

    def open(self, url):
        self.command("Navigate", "url", {"url": url})

    def faults(self):
        return [entry["message"] for entry in self.command("", "se/log", {"type": "browser"}) if entry["level"] in ("SEVERE", "WARNING")]

    def screenshot(self, path):
        with urllib.request.urlopen(f"http://127.0.0.1:{self.port}/session{self.session}/screenshot", timeout=SECONDS) as answer:
            path.write_bytes(base64.b64decode(json.load(answer)["value"]))


class Firefox(Browser):
    name = "Firefox"
    tools = (("firefox-esr", "firefox"),)

    def __init__(self):
        port = free_port()
        program = shutil.which("firefox-esr") or shutil.which("firefox")
        preferences = {"marionette.port": port, "browser.download.folderList": 2, "browser.download.dir": '"PROFILE/downloads"'}
        lines = "".join(f'user_pref("{name}", {value});\n' for name, value in preferences.items())
        super().__init__("sh", "-c", f"echo '{lines}' > PROFILE/user.js && exec \"$0\" \"$@\"", program, "--headless",
                         "--no-remote", "--marionette", "--profile", "PROFILE", f"--width={SIZE[0]}", f"--height={SIZE[1]}")
        self.socket = until(lambda: self.connected(port))
        self.socket.settimeout(2 * SECONDS)
        self.number = 0
        self.receive()
        self.command("NewSession", "", {"capabilities": {"alwaysMatch": {"timeouts": {"script": SECONDS * 1000}}}})

    @staticmethod
    def connected(port):
        try:
            return socket.create_connection(("127.0.0.1", port), timeout=5)
        except OSError:
            return None

    def receive(self):
        text = b""
        while not text.endswith(b":"):
            text += self.socket.recv(1)
        left, parts = int(text[:-1]), []
        while left:
            parts.append(self.socket.recv(left))
            left -= len(parts[-1])
        return json.loads(b"".join(parts))

    def command(self, name, _, words):
        self.number += 1
        text = json.dumps([0, self.number, f"WebDriver:{name}", words]).encode()
        self.socket.sendall(b"%d:%s" % (len(text), text))
        _, _, error, found = self.receive()
        if error:
            raise RuntimeError(str(error)[:500])
        return found["value"] if isinstance(found, dict) and set(found) == {"value"} else found

    def open(self, url):
        self.command("Navigate", "", {"url": url})

    def faults(self):
        return []

    def screenshot(self, path):
        path.write_bytes(base64.b64decode(self.command("TakeScreenshot", "", {"full": False})))
