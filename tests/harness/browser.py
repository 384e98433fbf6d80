"""Drives a browser without a window: Debian's `chromium`, over its DevTools protocol.

The browser reads requests from its file descriptor 3 and writes answers and events to 4, as JSON
with a NUL after each."""

import base64
import fcntl
import json
import os
import select
import shutil
import subprocess
import tempfile
import time

BROWSER = "chromium"
# The time limit of a request in seconds: then it fails.
SECONDS = 60
OPTIONS = (
    "--headless",
    "--no-sandbox",
    "--no-first-run",
    "--disable-gpu",
    "--disable-extensions",
    "--disable-background-networking",
    "--disable-dev-shm-usage",
    "--hide-scrollbars",
    "--remote-debugging-pipe",
)
# The numbers of the keys that have no character.
ARROWS = {"ArrowLeft": 37, "ArrowUp": 38, "ArrowRight": 39, "ArrowDown": 40}
KEYS = {"Escape": 27, "Enter": 13, **ARROWS}
ERRORS = ("error", "assert")


def is_installed():
    return shutil.which(BROWSER) is not None


def pipe():
    """A pipe, whose file descriptors are none that the browser uses."""
    low = os.pipe()
    high = [fcntl.fcntl(it, fcntl.F_DUPFD_CLOEXEC, 10) for it in low]
    for it in low:
        os.close(it)
    return high


class Channel:
    """The pipes to and from a browser, and the events that it sent."""

    def __init__(self, to_browser, from_browser):
        self.to_browser, self.from_browser = to_browser, from_browser
        self.rest, self.events, self.last = b"", [], 0

    def message(self):
        """The next message. Raises `TimeoutError` if there is none in time."""
        end = time.monotonic() + SECONDS
        while b"\0" not in self.rest:
            left = max(0, end - time.monotonic())
            if not select.select([self.from_browser], [], [], left)[0]:
                raise TimeoutError("the browser does not answer")
            data = os.read(self.from_browser, 1 << 16)
            if not data:
                raise EOFError("the browser ended")
            self.rest += data
        text, _, self.rest = self.rest.partition(b"\0")
        return json.loads(text)

    def ask(self, method, session=None, **parameters):
        """What the browser answers to a request."""
        self.last += 1
        request = {"id": self.last, "method": method, "params": parameters}
        if session is not None:
            request["sessionId"] = session
        data = json.dumps(request).encode() + b"\0"
        while data:
            data = data[os.write(self.to_browser, data) :]
        while True:
            message = self.message()
            if message.get("id") != self.last:
                self.events.append(message)
            elif "error" in message:
                raise RuntimeError(f"{method}: {message['error']['message']}")
            else:
                return message["result"]

    def wait_for(self, method):
        """Reads messages until there is an event of this kind, and forgets it."""
        while method not in [it["method"] for it in self.events]:
            self.events.append(self.message())
        self.events = [it for it in self.events if it["method"] != method]

    def close(self):
        os.close(self.to_browser)
        os.close(self.from_browser)


class Browser:
    """A browser that runs, with one page, until it is closed."""

    def __init__(self):
        self.folder = tempfile.TemporaryDirectory(ignore_cleanup_errors=True)
        (reader, to_browser), (from_browser, writer) = pipe(), pipe()

        def give_pipes():
            os.dup2(reader, 3)
            os.dup2(writer, 4)

        self.process = subprocess.Popen(
            [BROWSER, *OPTIONS, f"--user-data-dir={self.folder.name}", "about:blank"],
            stdin=subprocess.DEVNULL,
            stdout=subprocess.DEVNULL,
            stderr=subprocess.DEVNULL,
            preexec_fn=give_pipes,
            pass_fds=(3, 4),
        )
        os.close(reader)
        os.close(writer)
        self.channel = Channel(to_browser, from_browser)
        try:
            self.open_page()
        except BaseException:
            self.close()
            raise

    def close(self):
        try:
            self.channel.ask("Browser.close")
            self.process.wait(SECONDS)
        except (OSError, EOFError, RuntimeError, subprocess.TimeoutExpired):
            self.process.kill()
            self.process.wait()
        self.channel.close()
        self.folder.cleanup()

    def open_page(self):
        target = self.channel.ask("Target.createTarget", url="about:blank")["targetId"]
        attached = self.channel.ask("Target.attachToTarget", targetId=target, flatten=True)
        self.session = attached["sessionId"]
        for domain in ("Page", "Runtime", "Log"):
            self.ask(f"{domain}.enable")

    def ask(self, method, **parameters):
        """What the page answers to a request."""
        return self.channel.ask(method, self.session, **parameters)

    def load(self, path, width=1200, height=800):
        """Loads a file in a window of this size."""
        self.ask(
            "Emulation.setDeviceMetricsOverride",
            width=width,
            height=height,
            deviceScaleFactor=1,
            mobile=False,
        )
        self.channel.events.clear()
        self.ask("Page.navigate", url=path.resolve().as_uri())
        self.channel.wait_for("Page.loadEventFired")

    def value(self, expression):
        """The value of an expression in the page."""
        found = self.ask("Runtime.evaluate", expression=expression, returnByValue=True)
        if "exceptionDetails" in found:
            raise RuntimeError(found["exceptionDetails"]["exception"].get("description"))
        return found["result"].get("value")

    def errors(self):
        """The errors of the page since it was loaded."""
        self.value("0")  # the events before this answer are then read
        found = []
        for event in self.channel.events:
            kind, of = event["method"], event["params"]
            is_error = (
                kind == "Runtime.exceptionThrown"
                or (kind == "Runtime.consoleAPICalled" and of["type"] in ERRORS)
                or (kind == "Log.entryAdded" and of["entry"]["level"] == "error")
            )
            found += [of] if is_error else []
        return found

    def point_to(self, x, y):
        self.ask("Input.dispatchMouseEvent", type="mouseMoved", x=x, y=y)

    def click(self, x, y):
        self.point_to(x, y)
        for kind in ("mousePressed", "mouseReleased"):
            self.ask(
                "Input.dispatchMouseEvent", type=kind, x=x, y=y, button="left", clickCount=1
            )

    def press(self, key):
        """Presses a key, and releases it."""
        code = KEYS.get(key)
        text = {} if code else {"text": key}
        text = {"text": "\r"} if key == "Enter" else text  # which submits a form
        numbers = {"windowsVirtualKeyCode": code} if code else {}
        self.ask("Input.dispatchKeyEvent", type="keyDown", key=key, **text, **numbers)
        self.ask("Input.dispatchKeyEvent", type="keyUp", key=key, **numbers)

    def write(self, text):
        """Writes a text where the page expects one."""
        self.ask("Input.insertText", text=text)

    def prefer(self, scheme):
        """Makes `light` or `dark` the colours that the reader prefers."""
        feature = {"name": "prefers-color-scheme", "value": scheme}
        self.ask("Emulation.setEmulatedMedia", features=[feature])

    def run_scripts(self, runs):
        """Says whether pages that are loaded from now on run their scripts."""
        self.ask("Emulation.setScriptExecutionDisabled", value=not runs)

    def picture(self):
        """What the window shows, as PNG."""
        return base64.b64decode(self.ask("Page.captureScreenshot", format="png")["data"])
