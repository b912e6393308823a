"""Chromium without a window, asked over a pipe by its DevTools protocol, for tests/check_page.py.

No port is opened: the browser reads commands from its file 3 and writes replies to its file 4, each with a zero byte
behind it.
"""
import base64
import json
import os
import select
import shutil
import subprocess
import tempfile
import time

NAMES = ["chromium", "chromium-browser", "google-chrome"]

OPTIONS = ["--headless", "--no-sandbox", "--disable-gpu", "--remote-debugging-pipe", "--no-first-run",
           "--disable-dev-shm-usage", "--disable-background-networking", "--disable-renderer-backgrounding",
           "--disable-background-timer-throttling"]


def find_browser():
    """The browser's program, None where there is none."""
    return next((found for found in map(shutil.which, NAMES) if found), None)


class BrowserFailed(Exception):
    """The browser ended, was silent for too long, or its page threw something."""


class Browser:
    """A browser with one page. Use it as a context."""

    def __init__(self, program, seconds=600):
        self.program, self.seconds, self.number, self.kept, self.events = program, seconds, 0, b"", []

    def __enter__(self):
        self.folder = tempfile.TemporaryDirectory(prefix="lpd-page-", ignore_cleanup_errors=True)
        told, self.commands = os.pipe()
        self.replies, telling = os.pipe()
        words = [self.program, *OPTIONS, f"--user-data-dir={self.folder.name}", "about:blank"]
        # The shell puts the pipes where the browser looks for them.
        shell = ["sh", "-c", f'exec "$@" 3<&{told} 4>&{telling}', "sh"]
        streams = dict.fromkeys(("stdin", "stdout", "stderr"), subprocess.DEVNULL)
        self.process = subprocess.Popen([*shell, *words], pass_fds=(told, telling), **streams)
        os.close(told)
        os.close(telling)
        self.session = None
        page = next(each for each in self.call("Target.getTargets")["targetInfos"] if each["type"] == "page")
        self.session = self.call("Target.attachToTarget", targetId=page["targetId"], flatten=True)["sessionId"]
        self.call("Page.enable")
        self.call("Runtime.enable")
        self.call("Log.enable")
        return self

    def __exit__(self, *_):
        try:
            self.session = None
            self.call("Browser.close")
        except (BrowserFailed, OSError):
            pass
        try:
            self.process.wait(10)
        except subprocess.TimeoutExpired:
            self.process.kill()
            self.process.wait()
        os.close(self.commands)
        os.close(self.replies)
        self.folder.cleanup()

    def message(self, until):
        """The next message of the browser."""
        while b"\0" not in self.kept:
            if not select.select([self.replies], [], [], max(0, until - time.monotonic()))[0]:
                raise BrowserFailed("no reply")
            data = os.read(self.replies, 1 << 20)
            if not data:
                raise BrowserFailed("the browser ended")
            self.kept += data
        first, _, self.kept = self.kept.partition(b"\0")
        return json.loads(first)

    def call(self, method, **parameters):
        """The result of a command; what the browser says on its own meanwhile is kept in events."""
        self.number += 1
        command = {"id": self.number, "method": method, "params": parameters}
        if self.session:
            command["sessionId"] = self.session
        data = json.dumps(command).encode() + b"\0"
        while data:
            data = data[os.write(self.commands, data):]
        until = time.monotonic() + self.seconds
        while True:
            told = self.message(until)
            if told.get("id") == self.number:
                if "error" in told:
                    raise BrowserFailed(f"{method}: {told['error']['message']}")
                return told["result"]
            self.events.append(told)

    def run(self, script):
        """The value of a script in the page; a promise is waited for."""
        result = self.call("Runtime.evaluate", expression=script, awaitPromise=True, returnByValue=True)
        if "exceptionDetails" in result:
            details = result["exceptionDetails"]
            raise BrowserFailed(details.get("exception", {}).get("description", details["text"]))
        return result["result"].get("value")

    def page_seconds(self):
        """The seconds of the processor that the processes of pages had."""
        session, self.session = self.session, None
        try:
            processes = self.call("SystemInfo.getProcessInfo")["processInfo"]
        finally:
            self.session = session
        return sum(each["cpuTime"] for each in processes if each["type"] == "renderer")

    def open(self, path):
        """Opens a file, and waits until its page is there."""
        self.call("Page.navigate", url=path.resolve().as_uri())
        until = time.monotonic() + self.seconds
        while self.run("document.readyState + location.protocol") != "completefile:":
            if time.monotonic() > until:
                raise BrowserFailed(f"{path} is not loaded")
            time.sleep(0.02)

    def press(self, key, code=None, modifiers=0, text=None):
        """Presses a key and lets it go."""
        told = {"key": key, "code": code or key, "modifiers": modifiers}
        codes = {"Tab": 9, "Enter": 13, " ": 32}
        if key in codes:
            told["windowsVirtualKeyCode"] = codes[key]
        self.call("Input.dispatchKeyEvent", type="keyDown", **told, **({"text": text} if text else {}))
        self.call("Input.dispatchKeyEvent", type="keyUp", **told)

    def choose(self, selector, path):
        """Chooses a file as a person does."""
        root = self.call("DOM.getDocument")["root"]["nodeId"]
        node = self.call("DOM.querySelector", nodeId=root, selector=selector)["nodeId"]
        self.call("DOM.setFileInputFiles", files=[str(path)], nodeId=node)

    def picture(self, path, selector, width, height, dark=False):
        """A picture of the page from an element on, as PNG."""
        scheme = {"name": "prefers-color-scheme", "value": "dark" if dark else "light"}
        self.call("Emulation.setDeviceMetricsOverride", width=width, height=height, deviceScaleFactor=1, mobile=False)
        self.call("Emulation.setEmulatedMedia", features=[scheme])
        self.run(f"document.activeElement.blur(); document.querySelector('{selector}').scrollIntoView()")
        time.sleep(0.3)
        path.write_bytes(base64.b64decode(self.call("Page.captureScreenshot", format="png")["data"]))
        self.call("Emulation.clearDeviceMetricsOverride")
