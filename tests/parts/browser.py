"""Drives a browser without a window, Debian's chromium, over its pipe: opens a page, evaluates, presses, takes
pictures."""

import base64
import fcntl
import json
import os
import select
import shutil
import subprocess
import tempfile
import time

NAMES = ("chromium", "chromium-browser", "google-chrome")
FLAGS = (
    "--headless=new",
    "--no-sandbox",
    "--disable-gpu",
    "--no-first-run",
    "--disable-extensions",
    "--disable-background-networking",
    "--hide-scrollbars",
    "--remote-debugging-pipe",
)


def browser_there():
    """The path of a browser, or None."""
    return next(filter(None, map(shutil.which, NAMES)), None)


class Failed(Exception):
    """The browser doesn't answer, or a script of the page raised."""


class Browser:
    """A browser with one page. Messages are JSON with a zero byte behind each, written to its file 3 and read from its
    file 4."""

    def __init__(self, path, size=(1400, 1000)):
        self.room = tempfile.TemporaryDirectory(ignore_cleanup_errors=True)
        to_read, self.to = os.pipe()
        self.back, to_write = os.pipe()
        # Above the files that a shell's redirections name by one digit.
        ends = [fcntl.fcntl(end, fcntl.F_DUPFD, 10) for end in (to_read, to_write)]
        words = [path, *FLAGS, f"--user-data-dir={self.room.name}", f"--window-size={size[0]},{size[1]}", "about:blank"]
        shell = ["bash", "-c", f'exec "$@" 3<&{ends[0]} 4>&{ends[1]}', "browser", *words]
        nowhere = dict.fromkeys(("stdin", "stdout", "stderr"), subprocess.DEVNULL)
        self.process = subprocess.Popen(shell, pass_fds=ends, **nowhere)
        for end in (to_read, to_write, *ends):
            os.close(end)
        self.number, self.session, self.rest, self.errors, self.requests = 0, None, b"", [], []
        target = self.call("Target.createTarget", url="about:blank")["targetId"]
        self.session = self.call("Target.attachToTarget", targetId=target, flatten=True)["sessionId"]
        for domain in ("Page", "Runtime", "Log", "Network", "Performance"):
            self.call(f"{domain}.enable")
        screen = {"width": size[0], "height": size[1], "deviceScaleFactor": 1, "mobile": False}
        self.call("Emulation.setDeviceMetricsOverride", **screen)

    def __enter__(self):
        return self

    def __exit__(self, *_):
        self.process.terminate()
        try:
            self.process.wait(10)
        except subprocess.TimeoutExpired:
            self.process.kill()
            self.process.wait()
        os.close(self.to)
        os.close(self.back)
        self.room.cleanup()

    def message(self, limit):
        """The next message, or raises Failed after so many seconds."""
        until = time.monotonic() + limit
        while b"\0" not in self.rest:
            ready, _, _ = select.select([self.back], [], [], max(0, until - time.monotonic()))
            part = os.read(self.back, 1 << 20) if ready else b""
            if not part:
                raise Failed("the browser doesn't answer")
            self.rest += part
        line, _, self.rest = self.rest.partition(b"\0")
        return json.loads(line)

    def call(self, method, limit=300, **words):
        """The answer to a command; errors of the page are kept, and what it asks of a network."""
        self.number += 1
        request = {"id": self.number, "method": method, "params": words}
        request |= {"sessionId": self.session} if self.session else {}
        data = json.dumps(request).encode() + b"\0"
        while data:
            data = data[os.write(self.to, data) :]
        while True:
            message = self.message(limit)
            self.note(message)
            if message.get("id") == self.number:
                if "error" in message:
                    raise Failed(f"{method}: {message['error'].get('message')}")
                return message["result"]

    def note(self, message):
        method, words = message.get("method"), message.get("params", {})
        if method == "Runtime.exceptionThrown":
            details = words["exceptionDetails"]
            self.errors.append(details.get("exception", {}).get("description") or details["text"])
        elif method == "Log.entryAdded" and words["entry"]["level"] == "error":
            self.errors.append(words["entry"]["text"])
        elif method == "Network.requestWillBeSent":
            self.requests.append(words["request"]["url"])

    def evaluate(self, script, limit=300):
        """The value of a script, waited for where it is a promise."""
        answer = self.call("Runtime.evaluate", limit, expression=script, awaitPromise=True, returnByValue=True)
        if "exceptionDetails" in answer:
            details = answer["exceptionDetails"]
            raise Failed(details.get("exception", {}).get("description") or details["text"])
        return answer["result"].get("value")

    def open(self, url, ready):
        """Opens a page and waits until a script's value is true; `about:blank` before it, so that a link loads anew."""
        for one in ("about:blank", url):
            self.call("Page.navigate", url=one)
            self.wait(ready if one == url else "location.href === 'about:blank'")

    def wait(self, ready, limit=180):
        until, last = time.monotonic() + limit, None
        while time.monotonic() < until:
            try:
                if self.evaluate(f"Boolean({ready})"):
                    return
            except Failed as failed:
                # While a page loads, what it has isn't there yet.
                last = failed
            time.sleep(0.05)
        raise Failed(f"`{ready}` doesn't come true: {last or self.errors}")

    def press(self, key, shift=False):
        for kind in ("keyDown", "keyUp"):
            self.call("Input.dispatchKeyEvent", type=kind, key=key, code=key, modifiers=8 * shift)

    def mouse(self, kind, x, y):
        """Moves the mouse, or clicks."""
        self.call("Input.dispatchMouseEvent", type="mouseMoved", x=x, y=y)
        for one in ("mousePressed", "mouseReleased") if kind == "click" else ():
            self.call("Input.dispatchMouseEvent", type=one, x=x, y=y, button="left", clickCount=1)

    def processor_time(self):
        """How long the page's process has run, in seconds: what else the machine does is left out."""
        metrics = self.call("Performance.getMetrics")["metrics"]
        return next(metric["value"] for metric in metrics if metric["name"] == "ProcessTime")

    def picture(self, path):
        data = self.call("Page.captureScreenshot", format="png")["data"]
        with open(path, "wb") as file:
            file.write(base64.b64decode(data))
