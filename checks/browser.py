"""A browser without a window for `checks/page`: chromium, controlled over a pipe by its own protocol."""

import base64
import json
import os
import shutil
import subprocess
import tempfile
import time

from nodes import leave_out

NAMES = ("chromium", "chromium-browser", "google-chrome")


def need_browser():
    """The path of the browser; the script is left out if there is none."""
    found = next((path for path in map(shutil.which, NAMES) if path), None)
    if not found:
        leave_out("no chromium on this machine; on Debian install it by: apt-get install chromium")
    return found


class Browser:
    """One page of a browser, and the events on it."""

    def __enter__(self):
        path = need_browser()
        self.folder = tempfile.TemporaryDirectory(prefix="overcast-browser-", ignore_cleanup_errors=True)
        theirs_in, self.out = os.pipe()
        self.come, theirs_out = os.pipe()

        def places():
            # The browser reads commands from descriptor 3 and answers on descriptor 4.
            os.dup2(theirs_in, 103)
            os.dup2(theirs_out, 104)
            os.dup2(103, 3)
            os.dup2(104, 4)

        self.process = subprocess.Popen(
            [path, "--headless", "--no-sandbox", "--disable-gpu", "--hide-scrollbars", "--no-first-run",
             "--remote-debugging-pipe", f"--user-data-dir={self.folder.name}", "about:blank"],
            preexec_fn=places, close_fds=False, stdout=subprocess.DEVNULL, stderr=subprocess.DEVNULL)
        os.close(theirs_in)
        os.close(theirs_out)
        self.count, self.rest, self.events, self.session = 0, b"", [], None
        target = self.call("Target.createTarget", url="about:blank")["targetId"]
        self.session = self.call("Target.attachToTarget", targetId=target, flatten=True)["sessionId"]
        for domain in ("Runtime", "Page", "Network"):
            self.call(f"{domain}.enable")
        return self

    def __exit__(self, *_):
        self.process.kill()
        self.process.wait()
        os.close(self.out)
        os.close(self.come)
        self.folder.cleanup()

    def call(self, method, **words):
        """The result of a call of the protocol."""
        self.count += 1
        told = {"id": self.count, "method": method, "params": words}
        if self.session:
            told["sessionId"] = self.session
        os.write(self.out, json.dumps(told).encode() + b"\0")
        while True:
            while b"\0" not in self.rest:
                more = os.read(self.come, 1 << 20)
                assert more, "the browser ended"
                self.rest += more
            one, self.rest = self.rest.split(b"\0", 1)
            told = json.loads(one)
            if told.get("id") == self.count:
                assert "error" not in told, told
                return told["result"]
            self.events.append(told)

    def run(self, script):
        """The value of a script on the page."""
        told = self.call("Runtime.evaluate", expression=script, returnByValue=True, awaitPromise=True)
        assert "exceptionDetails" not in told, told
        return told["result"].get("value")

    def open(self, url, width, dark=False, media=""):
        """Opens an address in a window of this width, as a telephone if it is narrow."""
        self.events.clear()
        self.call("Emulation.setDeviceMetricsOverride", width=width, height=900, deviceScaleFactor=1, mobile=width < 600)
        self.call("Emulation.setEmulatedMedia", media=media,
                  features=[{"name": "prefers-color-scheme", "value": "dark" if dark else "light"}])
        self.call("Page.navigate", url=url)

    def wait_for(self, script, seconds=20):
        end = time.monotonic() + seconds
        while not self.run(script):
            assert time.monotonic() < end, f"not within {seconds} s: {script}"
            time.sleep(0.1)

    def faults(self):
        """The errors in the scripts of the page."""
        return [it["params"]["exceptionDetails"] for it in self.events if it.get("method") == "Runtime.exceptionThrown"]

    def asked(self):
        """The addresses that the page has asked for."""
        self.run("0")
        return [it["params"]["request"]["url"] for it in self.events if it.get("method") == "Network.requestWillBeSent"]

    def picture(self, path, most=2_600, scale=1):
        """Writes a picture of the page, of at most this many lines, at this scale."""
        size = self.run("[document.documentElement.clientWidth, document.documentElement.scrollHeight]")
        clip = {"x": 0, "y": 0, "width": size[0], "height": min(size[1], most), "scale": scale}
        told = self.call("Page.captureScreenshot", format="png", captureBeyondViewport=True, clip=clip)
        with open(path, "wb") as it:
            it.write(base64.b64decode(told["data"]))
