"""A browser without a window: Chromium, told what to do through two pipes, in the messages of its own tools."""
import base64
import fcntl
import itertools
import json
import os
import select
import shutil
import subprocess
import time

from nodes import SECONDS, Difference

NAMES = ("chromium", "chromium-browser", "google-chrome")


def browser_here():
    """The path of a browser; none if none is installed."""
    return next((found for it in NAMES if (found := shutil.which(it))), None)


class Browser:
    """A page of Chromium, with a profile in a folder of its own. It reads its messages at descriptor 3, and writes them at 4."""

    def __init__(self, path, folder, width, height):
        to_browser, from_browser = os.pipe(), os.pipe()

        def place_pipes():
            high = [fcntl.fcntl(it, fcntl.F_DUPFD, 10) for it in (to_browser[0], from_browser[1])]
            os.dup2(high[0], 3)
            os.dup2(high[1], 4)

        words = ["--headless=new", "--no-sandbox", "--disable-gpu", "--disable-dev-shm-usage", "--no-first-run", "--remote-debugging-pipe", f"--user-data-dir={folder}", f"--window-size={width},{height}", "about:blank"]
        self.ran = subprocess.Popen([path, *words], preexec_fn=place_pipes, close_fds=False, stdin=subprocess.DEVNULL, stdout=subprocess.DEVNULL, stderr=subprocess.DEVNULL)
        os.close(to_browser[0])
        os.close(from_browser[1])
        self.to, self.came, self.rest = to_browser[1], from_browser[0], b""
        self.numbers, self.told = itertools.count(1), []
        self.session = None
        target = self.ask("Target.createTarget", url="about:blank")["targetId"]
        self.session = self.ask("Target.attachToTarget", targetId=target, flatten=True)["sessionId"]
        for it in ("Page.enable", "Runtime.enable", "Log.enable"):
            self.ask(it)

    def message(self, end):
        """The next message of the browser."""
        while b"\0" not in self.rest:
            if not select.select([self.came], [], [], max(0, end - time.monotonic()))[0]:
                raise Difference("the browser says nothing")
            piece = os.read(self.came, 65536)
            if not piece:
                raise Difference("the browser has ended")
            self.rest += piece
        one, _, self.rest = self.rest.partition(b"\0")
        return json.loads(one)

    def ask(self, method, **given):
        """What the browser answers to a method."""
        number, end = next(self.numbers), time.monotonic() + 2 * SECONDS
        whole = {"id": number, "method": method, "params": given} | ({"sessionId": self.session} if self.session else {})
        os.write(self.to, json.dumps(whole).encode() + b"\0")
        while (found := self.message(end)).get("id") != number:
            self.told.append(found)
        if "error" in found:
            raise Difference(f"{method}: {found['error']}")
        return found["result"]

    def open(self, address):
        self.ask("Page.navigate", url=address)

    def value(self, expression):
        """The value of an expression in the page."""
        found = self.ask("Runtime.evaluate", expression=expression, returnByValue=True, awaitPromise=True)
        if "exceptionDetails" in found:
            raise Difference(f"{expression}: {found['exceptionDetails']}")
        return found["result"].get("value")

    def awaits(self, what, expression, seconds=SECONDS):
        """Waits until an expression is true in the page, and says how many seconds that took."""
        began = time.monotonic()
        while not self.value(expression):
            if time.monotonic() - began > seconds:
                raise Difference(f"{what} did not come about in {seconds} s: {self.value('document.body.innerText')}")
            time.sleep(0.01)
        return time.monotonic() - began

    def picture(self, path, width, height):
        """Keeps a picture of the page as it is on a screen of this size."""
        self.ask("Emulation.setDeviceMetricsOverride", width=width, height=height, deviceScaleFactor=1, mobile=width < 600)
        content = self.ask("Page.captureScreenshot", format="png")["data"]
        path.write_bytes(base64.b64decode(content))

    def faults(self):
        """What the page threw, what it wrote to its console, and what its policy refused."""
        kinds = ("Runtime.exceptionThrown", "Runtime.consoleAPICalled", "Log.entryAdded")
        found = [it["params"] for it in self.told if it.get("method") in kinds]
        # (an answer that refuses something is no fault of the page)
        return [it for it in found if it.get("entry", {}).get("source") != "network"]

    def end(self):
        """Ends it, and waits until it writes nothing more."""
        try:
            self.ask("Browser.close")
            self.ran.wait(SECONDS)
        except (Difference, OSError, subprocess.TimeoutExpired):
            self.ran.kill()
            self.ran.wait()
        os.close(self.to)
        os.close(self.came)
