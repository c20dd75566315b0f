"""A Chromium without a window, driven by its own protocol over two pipes: `with Chromium(folder) as it: it.open(address)`."""
import base64
import json
import os
import select
import shutil
import subprocess
import time

NAMES = ("chromium", "chromium-browser", "google-chrome")
SECONDS = 60  # for one answer
FLAGS = ["--headless=new", "--remote-debugging-pipe", "--disable-gpu", "--no-first-run", "--no-default-browser-check", "--disable-extensions",
         "--disable-background-networking", "--disable-component-update", "--disable-sync", "--hide-scrollbars", "--mute-audio"]


def found():
    """The program, or none where none is installed."""
    return next(filter(None, map(shutil.which, NAMES)), None)


class Chromium:
    """One browser with one page."""

    def __init__(self, folder):
        read, self.asks = os.pipe()
        self.told, write = os.pipe()
        self.number, self.events, self.rest = 0, [], b""
        sandbox = ["--no-sandbox"] * (os.geteuid() == 0)  # which root cannot have

        def place():  # it reads from 3 and writes to 4
            for it, to in ((os.dup(read), 3), (os.dup(write), 4)):
                os.dup2(it, to)

        words = [found(), *FLAGS, *sandbox, f"--user-data-dir={folder}/profile", "about:blank"]
        how = dict.fromkeys(("stdin", "stdout", "stderr"), subprocess.DEVNULL)
        self.process = subprocess.Popen(words, close_fds=False, preexec_fn=place, env={**os.environ, "HOME": folder}, **how)
        os.close(read), os.close(write)
        self.session = None
        target = next(it for it in self.ask("Target.getTargets")["targetInfos"] if it["type"] == "page")
        self.session = self.ask("Target.attachToTarget", targetId=target["targetId"], flatten=True)["sessionId"]
        for it in ("Page", "Runtime", "Log", "Network"):
            self.ask(f"{it}.enable")

    def __enter__(self):
        return self

    def __exit__(self, *_):
        self.session = None
        try:
            self.ask("Browser.close")
            self.process.wait(SECONDS)
        finally:
            self.process.kill()
            self.process.wait()
            os.close(self.asks), os.close(self.told)

    def message(self, until):
        """The next message that the browser wrote, or none at that time."""
        while b"\0" not in self.rest:
            if not select.select([self.told], [], [], max(0, until - time.monotonic()))[0]:
                return None
            part = os.read(self.told, 1 << 20)
            if not part:
                raise EOFError("the browser ended")
            self.rest += part
        whole, _, self.rest = self.rest.partition(b"\0")
        return json.loads(whole)

    def ask(self, method, **values):
        """What the browser answers to a call of its protocol. What it tells meanwhile is kept in `events`."""
        self.number += 1
        asked = {"id": self.number, "method": method, "params": values, **({"sessionId": self.session} if self.session else {})}
        whole = memoryview(json.dumps(asked).encode() + b"\0")
        while whole:
            whole = whole[os.write(self.asks, whole) :]
        until = time.monotonic() + SECONDS
        while True:
            told = self.message(until)
            if told is None:
                raise TimeoutError(method)
            if told.get("id") == self.number:
                if "error" in told:
                    raise ValueError(f"{method}: {told['error']}")
                return told["result"]
            self.events.append(told)

    def open(self, address):
        """Goes to an address, and waits until it is loaded."""
        self.ask("Page.navigate", url="about:blank")
        self.ask("Page.navigate", url=address)
        self.wait_for("document.readyState === 'complete' && location.href !== 'about:blank'")

    def value(self, expression):
        """What an expression in the page gives, awaited."""
        told = self.ask("Runtime.evaluate", expression=expression, returnByValue=True, awaitPromise=True)
        if "exceptionDetails" in told:
            raise ValueError(f"{expression[:200]}: {told['exceptionDetails']}")
        return told["result"].get("value")

    def wait_for(self, expression, seconds=20):
        """Waits until an expression is true, and tells whether it is."""
        until = time.monotonic() + seconds
        while not (is_so := self.value(expression)) and time.monotonic() < until:
            time.sleep(0.02)
        return bool(is_so)

    def press(self, key, code=0):
        for kind in ("keyDown", "keyUp"):
            self.ask("Input.dispatchKeyEvent", type=kind, key=key, code=key, windowsVirtualKeyCode=code)

    def type(self, text):
        self.ask("Input.insertText", text=text)

    def give_file(self, selector, path):
        """Has a file chosen in an input for files."""
        node = self.ask("Runtime.evaluate", expression=f"document.querySelector({json.dumps(selector)})")["result"]["objectId"]
        self.ask("DOM.setFileInputFiles", files=[path], objectId=node)

    def look(self, path, width=1280, height=900, is_dark=False):
        """Draws the page to a file."""
        self.ask("Emulation.setDeviceMetricsOverride", width=width, height=height, deviceScaleFactor=1, mobile=width < 600)
        self.ask("Emulation.setEmulatedMedia", features=[{"name": "prefers-color-scheme", "value": "dark" if is_dark else "light"}])
        with open(path, "wb") as it:
            it.write(base64.b64decode(self.ask("Page.captureScreenshot", captureBeyondViewport=True)["data"]))
