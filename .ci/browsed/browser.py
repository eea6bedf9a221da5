"""A headless Chromium for .ci/pages, driven by the DevTools protocol over two pipes."""

import base64
import contextlib
import fcntl
import json
import os
import select
import signal
import subprocess
import time

# The pipes by which Chromium is told what to do, and answers.
FOR_COMMANDS, FOR_ANSWERS = 3, 4
# Root can't have Chromium's sandbox.
WORDS = """--headless --remote-debugging-pipe --no-first-run --disable-gpu --disable-dev-shm-usage --disable-extensions
--hide-scrollbars --force-color-profile=srgb --lang=en --no-sandbox""".split()
# No name is resolved, so a test can't depend on another machine, and can't reach one.
WORDS.append("--host-resolver-rules=MAP * ~NOTFOUND, EXCLUDE 127.0.0.1")
SECONDS = 60
KEYS = {
    "Tab": 9, "Enter": 13, "Space": 32, "End": 35, "Home": 36, "ArrowLeft": 37, "ArrowUp": 38, "ArrowRight": 39,
    "ArrowDown": 40,
}
TEXTS = {"Enter": "\r", "Space": " "}


class Trouble(Exception):
    """What the browser refused, or didn't do in time."""


class Browser:
    def __init__(self, program, folder):
        # Pipes with high numbers can be moved to the two that Chromium expects without getting into each other's way.
        ends = [fcntl.fcntl(end, fcntl.F_DUPFD_CLOEXEC, 20) for pipe in (os.pipe(), os.pipe()) for end in pipe]

        def connect():
            os.dup2(ends[0], FOR_COMMANDS)
            os.dup2(ends[3], FOR_ANSWERS)

        words = [program, *WORDS, f"--user-data-dir={folder}", "about:blank"]
        quiet = {"stdin": subprocess.DEVNULL, "stdout": subprocess.DEVNULL, "stderr": subprocess.DEVNULL}
        environment = {**os.environ, "HOME": str(folder)}
        self.process = subprocess.Popen(
            words, **quiet, env=environment, close_fds=False, preexec_fn=connect, start_new_session=True
        )
        os.close(ends[0])
        os.close(ends[3])
        self.answers, self.commands = ends[2], ends[1]
        self.number, self.read, self.events = 0, b"", {}

    def close(self):
        with contextlib.suppress(Trouble, OSError):
            self.call("Browser.close")
        with contextlib.suppress(subprocess.TimeoutExpired):
            self.process.wait(5)
        with contextlib.suppress(ProcessLookupError):
            os.killpg(self.process.pid, signal.SIGKILL)
        self.process.wait()
        os.close(self.answers)
        os.close(self.commands)

    def message(self, until):
        """Returns the next message, or None if there is none until a time."""
        while b"\0" not in self.read:
            if not select.select([self.answers], [], [], max(0, until - time.monotonic()))[0]:
                return None
            came = os.read(self.answers, 1 << 20)
            if not came:
                raise Trouble("the browser has ended")
            self.read += came
        message, _, self.read = self.read.partition(b"\0")
        told = json.loads(message)
        if "method" in told:
            self.events.setdefault((told.get("sessionId"), told["method"]), []).append(told["params"])
        return told

    def call(self, method, session=None, **params):
        self.number += 1
        command = {"id": self.number, "method": method, "params": params, **({"sessionId": session} if session else {})}
        written = json.dumps(command).encode() + b"\0"
        while written:
            written = written[os.write(self.commands, written) :]
        until = time.monotonic() + SECONDS
        while message := self.message(until):
            if message.get("id") == self.number:
                if "error" in message:
                    raise Trouble(f"{method}: {message['error']['message']}")
                return message["result"]
        raise Trouble(f"{method}: no answer")

    def tab(self):
        target = self.call("Target.createTarget", url="about:blank")["targetId"]
        return Tab(self, self.call("Target.attachToTarget", targetId=target, flatten=True)["sessionId"])


class Tab:
    """A page of the browser."""

    def __init__(self, browser, session):
        self.browser, self.session = browser, session
        for domain in ("Page", "Runtime", "Network"):
            self.call(f"{domain}.enable")

    def call(self, method, **params):
        return self.browser.call(method, self.session, **params)

    def take(self, method):
        """Returns the events of a kind that have come for this page since they were last taken."""
        return self.browser.events.pop((self.session, method), [])

    def event(self, method):
        """Waits for an event."""
        until = time.monotonic() + SECONDS
        while not (found := self.take(method)):
            if not self.browser.message(until):
                raise Trouble(f"no {method}")
        return found[0]

    def requested(self):
        """Returns the addresses that the page has asked for since the last call, without those that its policy
        forbids."""
        forbidden = {
            event["requestId"] for event in self.take("Network.loadingFailed") if event.get("blockedReason") == "csp"
        }
        return {
            event["request"]["url"]
            for event in self.take("Network.requestWillBeSent")
            if event["requestId"] not in forbidden
        }

    def open(self, url):
        """Opens a page, and waits until it and its pictures are loaded."""
        self.take("Page.loadEventFired")
        self.call("Page.navigate", url=url)
        self.event("Page.loadEventFired")

    def value(self, expression):
        """Returns the value of an expression of JavaScript, or of what it promises."""
        told = self.call("Runtime.evaluate", expression=expression, returnByValue=True, awaitPromise=True)
        if "exceptionDetails" in told:
            details = told["exceptionDetails"]
            raise Trouble(details.get("exception", {}).get("description", details["text"]))
        return told["result"].get("value")

    def wait(self, expression):
        """Waits until an expression has a true value, and returns that."""
        until = time.monotonic() + SECONDS
        while not (value := self.value(expression)):
            if time.monotonic() > until:
                raise Trouble(f"waited in vain for {expression}")
            time.sleep(0.01)
        return value

    def click(self, x, y):
        for kind in ("mousePressed", "mouseReleased"):
            self.call("Input.dispatchMouseEvent", type=kind, x=x, y=y, button="left", clickCount=1)

    def click_on(self, selector):
        """Clicks in the middle of an element."""
        box = self.value(f"document.querySelector({json.dumps(selector)}).getBoundingClientRect().toJSON()")
        self.click(box["x"] + box["width"] / 2, box["y"] + box["height"] / 2)

    def type(self, text):
        self.call("Input.insertText", text=text)

    def press(self, key):
        pressed = {"key": TEXTS.get(key, key), "code": key, "windowsVirtualKeyCode": KEYS[key]}
        self.call("Input.dispatchKeyEvent", type="keyDown", **pressed, **({"text": TEXTS[key]} if key in TEXTS else {}))
        self.call("Input.dispatchKeyEvent", type="keyUp", **pressed)

    def show_as(self, width, height, scheme="light"):
        """Sets the size of the window and the colour scheme."""
        self.call("Emulation.setDeviceMetricsOverride", width=width, height=height, deviceScaleFactor=1, mobile=False)
        self.call("Emulation.setEmulatedMedia", features=[{"name": "prefers-color-scheme", "value": scheme}])

    def picture(self, **form):
        """Returns what the page looks like, as PNG or in another form."""
        return base64.b64decode(self.call("Page.captureScreenshot", **(form or {"format": "png"}))["data"])
