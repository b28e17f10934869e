"""Headless Chromium, driven through a pipe (Chrome DevTools Protocol)."""
import base64
import contextlib
import json
import os
import select
import shutil
import subprocess
import tempfile
import time

NAMES = ("chromium", "chromium-browser", "google-chrome")
LONGEST = 120  # Seconds that an answer may take.


def program():
    """Chromium's program, or None if there is none."""
    return next(filter(None, map(shutil.which, NAMES)), None)


class NoAnswer(Exception):
    """The browser ended, or doesn't answer."""


class Browser:
    """A browser with one page. Its keys and clicks work like a user's."""

    def __init__(self, width=1200, height=800):
        self.folder = tempfile.mkdtemp()
        to_browser, self.output = os.pipe()
        self.input, from_browser = os.pipe()
        words = [
            program(), "--headless=new", "--remote-debugging-pipe", "--no-sandbox", "--disable-gpu",
            "--no-first-run", "--disable-extensions", "--disable-background-networking",
            "--disable-component-update", "--disable-dev-shm-usage", "--hide-scrollbars",
            f"--user-data-dir={self.folder}", f"--window-size={width},{height}", "about:blank",
        ]
        shell = f'exec "$@" 3<&{to_browser} 4>&{from_browser}'
        self.process = subprocess.Popen(
            ["bash", "-c", shell, "chromium", *words], pass_fds=(to_browser, from_browser),
            stdin=subprocess.DEVNULL, stdout=subprocess.DEVNULL, stderr=subprocess.DEVNULL,
        )
        os.close(to_browser)
        os.close(from_browser)
        self.number, self.session, self.read = 0, None, b""
        target = self.call("Target.createTarget", url="about:blank")["targetId"]
        attached = self.call("Target.attachToTarget", targetId=target, flatten=True)
        self.session = attached["sessionId"]
        for domain in ("Page", "Runtime"):
            self.call(f"{domain}.enable")
        self.complaints = []

    def __enter__(self):
        return self

    def __exit__(self, *_):
        self.session = None
        with contextlib.suppress(NoAnswer, OSError):
            self.call("Browser.close")
        try:
            self.process.wait(LONGEST)
        except subprocess.TimeoutExpired:
            self.process.kill()
            self.process.wait()
        os.close(self.output)
        os.close(self.input)
        self.remove_folder()

    def remove_folder(self):
        """Removes the browser's folder, although its processes may still write there."""
        for _ in range(50):
            shutil.rmtree(self.folder, ignore_errors=True)
            if not os.path.exists(self.folder):
                break
            time.sleep(0.1)

    # ---- messages

    def call(self, method, **words):
        """Calls a method of the protocol and returns its result."""
        self.number += 1
        message = {"id": self.number, "method": method, "params": words}
        if self.session:
            message["sessionId"] = self.session
        os.write(self.output, json.dumps(message).encode() + b"\0")
        while True:
            answer = self.message()
            if answer.get("id") == self.number:
                if "error" in answer:
                    raise NoAnswer(f"{method}: {answer['error']}")
                return answer["result"]

    def message(self):
        """The next message of the browser. Errors of scripts are kept."""
        while b"\0" not in self.read:
            if not select.select([self.input], [], [], LONGEST)[0]:
                raise NoAnswer("the browser does not answer")
            more = os.read(self.input, 1 << 20)
            if not more:
                raise NoAnswer("the browser has ended")
            self.read += more
        text, _, self.read = self.read.partition(b"\0")
        message = json.loads(text)
        if message.get("method") == "Runtime.exceptionThrown":
            self.complaints.append(message["params"]["exceptionDetails"])
        return message

    # ---- the page

    def open(self, path):
        """Opens a file and waits until it is drawn."""
        self.complaints = []
        self.call("Page.navigate", url=f"file://{path}")
        self.value("new Promise(done => document.readyState === 'complete' ? done() : addEventListener('load', done))")
        self.rest()

    def value(self, expression):
        """The value of a JavaScript expression in the page."""
        ran = self.call("Runtime.evaluate", expression=expression, returnByValue=True, awaitPromise=True)
        if "exceptionDetails" in ran:
            raise NoAnswer(f"{expression}: {ran['exceptionDetails']}")
        return ran["result"].get("value")

    def rest(self):
        """Waits until the page is drawn."""
        self.value("new Promise(done => requestAnimationFrame(() => requestAnimationFrame(done)))")

    def mouse(self, kind, x, y, **words):
        self.call("Input.dispatchMouseEvent", type=kind, x=x, y=y, **words)

    def click(self, x, y, shift=False):
        """Clicks on a point of the page."""
        words = {"button": "left", "clickCount": 1, "modifiers": 8 if shift else 0}
        self.mouse("mouseMoved", x, y)
        self.mouse("mousePressed", x, y, **words)
        self.mouse("mouseReleased", x, y, **words)
        self.rest()

    def click_on(self, selector):
        """Clicks on the middle of an element."""
        box = self.value(
            f"(() => {{ const e = document.querySelector({json.dumps(selector)}); e.scrollIntoView({{block: 'nearest'}});"
            " const b = e.getBoundingClientRect(); return [b.x + b.width / 2, b.y + b.height / 2]; })()"
        )
        self.click(*box)

    def press(self, key):
        for kind in ("keyDown", "keyUp"):
            self.call("Input.dispatchKeyEvent", type=kind, key=key, code=key)
        self.rest()

    def screenshot(self):
        """The page as a picture, PNG."""
        return base64.b64decode(self.call("Page.captureScreenshot", format="png")["data"])
