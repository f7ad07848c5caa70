"""A browser without a window: Debian's chromium, which opens a page, hands out what it shows, and
takes its picture. It is spoken to by the DevTools protocol over two pipes, so that nothing listens on
the network."""

import base64
import contextlib
import json
import os
import select
import shutil
import subprocess
import tempfile
import time

NAMES = ("chromium", "chromium-browser", "google-chrome")
PACKAGE = "chromium"

# How long one answer of the browser is waited for, in seconds.
PATIENCE = 60

OPTIONS = (
    "--headless=new",
    "--no-sandbox",  # without this it does not start for root
    "--remote-debugging-pipe",
    "--disable-gpu",
    "--hide-scrollbars",
    "--no-first-run",
    "--disable-background-networking",
    "--disable-component-update",
    "--disable-extensions",
    "--disable-sync",
    "--mute-audio",
    "--force-device-scale-factor=1",
)


def found():
    """The browser's path, or None where there is none."""
    return next(filter(None, map(shutil.which, NAMES)), None)


def install():
    """Debian's package, where this may install it."""
    if os.geteuid() != 0 or not shutil.which("apt-get"):
        return
    for words in (["update"], ["install", "-y", PACKAGE]):
        subprocess.run(["apt-get", "-qq"] + words, stdout=subprocess.DEVNULL, check=False)


class Failed(Exception):
    """The browser did not answer, or answered with an error."""


class Browser:
    """A running browser with one page."""

    def __init__(self, process, commands, answers):
        self.process = process
        self.commands = commands
        self.answers = answers
        self.received = b""
        self.number = 0
        self.session = None
        self.events = []

    def send(self, method, **parameters):
        """A command and its answer; the events that come before the answer are kept."""
        self.number += 1
        message = {"id": self.number, "method": method, "params": parameters}
        if self.session:
            message["sessionId"] = self.session
        os.write(self.commands, json.dumps(message).encode() + b"\0")
        while True:
            answer = self.receive()
            if answer.get("id") == self.number:
                break
            self.events.append(answer)
        if "error" in answer:
            raise Failed("%s: %s" % (method, answer["error"].get("message")))
        return answer["result"]

    def receive(self):
        """The next message, which ends with a byte of 0."""
        until = time.monotonic() + PATIENCE
        while b"\0" not in self.received:
            ready, _, _ = select.select([self.answers], [], [], max(0, until - time.monotonic()))
            part = os.read(self.answers, 1 << 20) if ready else b""
            if not part:
                raise Failed("the browser does not answer.")
            self.received += part
        message, self.received = self.received.split(b"\0", 1)
        return json.loads(message)

    def wait_for(self, method):
        """The first event of this name that is not yet looked at."""
        for event in self.events:
            if event.get("method") == method:
                return event
        while True:
            event = self.receive()
            self.events.append(event)
            if event.get("method") == method:
                return event

    def open_page(self):
        target = self.send("Target.createTarget", url="about:blank")["targetId"]
        attached = self.send("Target.attachToTarget", targetId=target, flatten=True)
        self.session = attached["sessionId"]
        for domain in ("Page", "Runtime", "Log", "Network"):
            self.send(domain + ".enable")

    def size(self, width, height):
        self.send(
            "Emulation.setDeviceMetricsOverride",
            width=width,
            height=height,
            deviceScaleFactor=1,
            mobile=False,
        )

    def colours(self, scheme):
        """light or dark, as the reader's machine asks for it."""
        feature = {"name": "prefers-color-scheme", "value": scheme}
        self.send("Emulation.setEmulatedMedia", features=[feature])

    def show(self, url):
        """Loads a page to its end, and hands out what happened meanwhile."""
        self.events = []
        self.send("Page.navigate", url=url)
        self.wait_for("Page.loadEventFired")
        # What the browser still has to say comes before this answer.
        self.value("new Promise(done => requestAnimationFrame(() => setTimeout(done, 50)))")
        return self.events

    def value(self, expression):
        """What an expression in the page gives."""
        answer = self.send(
            "Runtime.evaluate", expression=expression, returnByValue=True, awaitPromise=True
        )
        if "exceptionDetails" in answer:
            raise Failed("%s: %s" % (expression, answer["exceptionDetails"].get("text")))
        return answer["result"].get("value")

    def picture(self, path, width, height, top=0):
        """A picture of a part of the page, from its left edge."""
        clip = {"x": 0, "y": top, "width": width, "height": height, "scale": 1}
        answer = self.send(
            "Page.captureScreenshot", format="png", clip=clip, captureBeyondViewport=True
        )
        path.write_bytes(base64.b64decode(answer["data"]))

    def paper(self, path):
        """The page as it is printed, with the sheet that it asks for."""
        answer = self.send("Page.printToPDF", preferCSSPageSize=True, printBackground=True)
        path.write_bytes(base64.b64decode(answer["data"]))


@contextlib.contextmanager
def running():
    """A browser with an empty page, which is ended afterwards."""
    with tempfile.TemporaryDirectory() as profile:
        commands_out, commands = os.pipe()
        answers, answers_in = os.pipe()
        process = start(profile, commands_out, answers_in)
        os.close(commands_out)
        os.close(answers_in)
        browser = Browser(process, commands, answers)
        try:
            browser.open_page()
            yield browser
        finally:
            end(browser)


def start(profile, commands_out, answers_in):
    """The browser reads commands from file 3 and writes answers to file 4."""

    def place():
        # By way of high numbers, as the pipes may themselves be 3 or 4.
        os.dup2(commands_out, 60)
        os.dup2(answers_in, 61)
        os.dup2(60, 3)
        os.dup2(61, 4)

    return subprocess.Popen(
        [found(), "--user-data-dir=" + profile, *OPTIONS, "about:blank"],
        stdin=subprocess.DEVNULL,
        stdout=subprocess.DEVNULL,
        stderr=subprocess.DEVNULL,
        preexec_fn=place,
        pass_fds=(3, 4),
    )


def end(browser):
    """Asks the browser to end, and ends it where it does not."""
    browser.session = None
    with contextlib.suppress(Failed, OSError):
        browser.send("Browser.close")
    os.close(browser.commands)
    os.close(browser.answers)
    try:
        browser.process.wait(10)
    except subprocess.TimeoutExpired:
        browser.process.kill()
        browser.process.wait()
