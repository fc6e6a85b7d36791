"""A headless Chromium driven over the DevTools protocol by a pipe, with the standard library only."""

import base64
import fcntl
import json
import os
import select
import shutil
import subprocess
import time

NAMES = ("chromium", "chromium-browser", "google-chrome", "google-chrome-stable")
FLAGS = (
    "--headless=new --no-sandbox --disable-gpu --disable-dev-shm-usage --no-first-run --disable-extensions "
    "--disable-background-networking --hide-scrollbars --mute-audio --remote-debugging-pipe"
).split()
KEY_CODES = dict(PageUp=33, PageDown=34, End=35, Home=36, ArrowLeft=37, ArrowUp=38, ArrowRight=39, ArrowDown=40, Enter=13, Escape=27)
KEY_CODES.update({" ": 32, "+": 187, "-": 189, "0": 48, "w": 87})
SHIFT = 8
CALL_SECONDS_MOST = 300  # 101 steps on a machine that does other work too


class BrowserError(Exception):
    pass


def find(log):
    """The path of Chromium; where there is none, Debian's package is installed."""
    found = next(filter(None, map(shutil.which, NAMES)), None)
    if not found and shutil.which("apt-get") and os.geteuid() == 0:
        print("  installing chromium ..", flush=True)
        for command in (["apt-get", "update"], ["apt-get", "install", "-y", "--no-install-recommends", "chromium"]):
            subprocess.run(command, stdout=log, stderr=log, env={**os.environ, "DEBIAN_FRONTEND": "noninteractive"})
        found = shutil.which("chromium")
    if not found:
        raise BrowserError("no chromium: install it (Debian: apt-get install chromium)")
    return found


class Page:
    """A browser with one page open."""

    def __init__(self, folder, width=1280, height=800):
        folder.mkdir(parents=True, exist_ok=True)
        self.size = {"width": width, "height": height, "deviceScaleFactor": 1, "mobile": False}
        self.log = open(folder / "chromium.log", "w")
        ours_in, theirs_out = os.pipe()
        theirs_in, ours_out = os.pipe()
        # The browser reads commands from descriptor 3 and writes to 4; both ends are kept clear of those.
        theirs_in, theirs_out = (fcntl.fcntl(end, fcntl.F_DUPFD_CLOEXEC, 10) for end in (theirs_in, theirs_out))

        def wire():
            os.dup2(theirs_in, 3)
            os.dup2(theirs_out, 4)

        command = [find(self.log), *FLAGS, f"--user-data-dir={folder / 'profile'}", "about:blank"]
        self.process = subprocess.Popen(
            command, stdin=subprocess.DEVNULL, stdout=self.log, stderr=self.log, preexec_fn=wire, close_fds=False
        )
        os.close(theirs_in)
        os.close(theirs_out)
        self.reader, self.writer = ours_in, ours_out
        self.pending, self.events, self.number, self.session = b"", [], 0, None

    def __enter__(self):
        try:
            target = self.call("Target.createTarget", url="about:blank")["targetId"]
            self.session = self.call("Target.attachToTarget", targetId=target, flatten=True)["sessionId"]
            for domain in ("Page", "Runtime", "Network", "Log"):
                self.call(f"{domain}.enable")
            self.call("Emulation.setDeviceMetricsOverride", **self.size)
        except BaseException:
            self.close()
            raise
        return self

    def __exit__(self, *_):
        self.close()

    def receive(self, until):
        """The next message, or None when the time is over."""
        while b"\0" not in self.pending:
            ready, _, _ = select.select([self.reader], [], [], max(0, until - time.time()))
            if not ready:
                return None
            data = os.read(self.reader, 1 << 20)
            if not data:
                raise BrowserError("the browser closed its pipe")
            self.pending += data
        message, self.pending = self.pending.split(b"\0", 1)
        return json.loads(message)

    def call(self, method, **parameters):
        self.number += 1
        message = {"id": self.number, "method": method, "params": parameters}
        if self.session:
            message["sessionId"] = self.session
        os.write(self.writer, json.dumps(message).encode() + b"\0")
        until = time.time() + CALL_SECONDS_MOST
        while (answer := self.receive(until)) is not None:
            if answer.get("id") == self.number:
                if "error" in answer:
                    raise BrowserError(f"{method}: {answer['error']}")
                return answer["result"]
            self.events.append(answer)
        raise BrowserError(f"{method}: no answer in {CALL_SECONDS_MOST} s")

    def open(self, url):
        """Loads a page, always afresh."""
        self.call("Page.navigate", url="about:blank")
        self.events.clear()
        self.call("Page.navigate", url=url)
        until = time.time() + CALL_SECONDS_MOST
        while self.evaluate("document.readyState === 'complete' && location.href !== 'about:blank'") is not True:
            if time.time() > until:
                raise BrowserError(f"{url} was not loaded in {CALL_SECONDS_MOST} s")
            time.sleep(0.02)

    def evaluate(self, expression):
        result = self.call("Runtime.evaluate", expression=expression, returnByValue=True, awaitPromise=True)
        if "exceptionDetails" in result:
            raise BrowserError(f"{expression[:80]}: {result['exceptionDetails']}")
        return result["result"].get("value")

    def press(self, key, shift=False):
        given = {"key": key, "code": key, "windowsVirtualKeyCode": KEY_CODES[key], "modifiers": SHIFT if shift else 0}
        self.call("Input.dispatchKeyEvent", type="rawKeyDown", **given)
        self.call("Input.dispatchKeyEvent", type="keyUp", **given)

    def click(self, selector, part_across=0.5):
        """Clicks into the first element that the selector finds."""
        box = "(e) => { e.scrollIntoView({ block: 'nearest' }); return e.getBoundingClientRect().toJSON(); }"
        found = self.evaluate(f"({box})(document.querySelector({json.dumps(selector)}))")
        x, y, width, height = (found[side] for side in ("x", "y", "width", "height"))
        given = {"x": x + width * part_across, "y": y + height / 2, "button": "left", "clickCount": 1}
        self.call("Input.dispatchMouseEvent", type="mousePressed", **given)
        self.call("Input.dispatchMouseEvent", type="mouseReleased", **given)

    def write(self, selector, text):
        """Types into the first element that the selector finds, in place of what stands there."""
        self.evaluate(f"(() => {{ const e = document.querySelector({json.dumps(selector)}); e.focus(); e.value = ''; }})()")
        self.call("Input.insertText", text=text)

    def resize(self, width, height):
        self.call("Emulation.setDeviceMetricsOverride", **{**self.size, "width": width, "height": height})

    def step_cost(self, steps, expression):
        """Milliseconds of the page's own processor time for each of so many steps that an expression takes, and what it gives."""
        self.call("Performance.enable", timeDomain="threadTicks")

        def spent():
            return next(one["value"] for one in self.call("Performance.getMetrics")["metrics"] if one["name"] == "TaskDuration")

        before = spent()
        given = self.evaluate(expression)
        return 1000 * (spent() - before) / steps, given

    def scheme(self, name):
        self.call("Emulation.setEmulatedMedia", features=[{"name": "prefers-color-scheme", "value": name}])

    def screenshot(self, path):
        path.write_bytes(base64.b64decode(self.call("Page.captureScreenshot", format="png")["data"]))

    def complaints(self):
        """Requests that left the page, and errors, since it was opened."""
        found = []
        for event in self.events:
            method, given = event.get("method"), event.get("params", {})
            if method == "Network.requestWillBeSent" and not given["request"]["url"].startswith(("file:", "data:", "about:")):
                found.append(given["request"]["url"])
            if method in ("Runtime.exceptionThrown", "Log.entryAdded") or given.get("type") == "error":
                found.append(json.dumps(given)[:300])
        return found

    def close(self):
        try:
            self.session = None
            self.call("Browser.close")
            self.process.wait(10)
        except (BrowserError, OSError, subprocess.TimeoutExpired):
            self.process.terminate()
            self.process.wait(10)
        os.close(self.reader)
        os.close(self.writer)
        self.log.close()


if __name__ == "__main__":
    # only sees to it that there is one
    try:
        find(subprocess.DEVNULL)
    except BrowserError as error:
        raise SystemExit(str(error))
