"""A browser without a window, driven as a user would: real clicks, keys and typed text."""
import base64
import contextlib
import fcntl
import json
import os
import pathlib
import select
import shutil
import subprocess
import tempfile
import time
from collections.abc import Iterator

import pngs

COMMANDS = "chromium", "chromium-browser", "google-chrome"
SECONDS = 120
KEYS = {"Enter": (13, "\r"), "Escape": (27, ""), "Tab": (9, ""), "Backspace": (8, "")}


class Failed(Exception):
    """The browser, or the page in it, could not do what was asked."""


def command(given: str | None = None) -> str | None:
    """The browser to use, where there is one."""
    return next(filter(None, map(shutil.which, [given] if given else COMMANDS)), None)


class Browser:
    """One page of a browser, which is told what to do by its debugging pipe."""

    def __init__(self, name: str):
        self.folder = tempfile.mkdtemp(prefix="browser-")
        words = [name, "--headless", "--disable-gpu", "--remote-debugging-pipe", "--no-first-run"]
        words += [f"--user-data-dir={self.folder}", "--window-size=1280,900", "about:blank"]
        if os.getuid() == 0:
            words.append("--no-sandbox")
        reads, self.to = os.pipe()
        self.of, writes = os.pipe()
        # The browser reads at 3 and writes at 4; the copies here are out of the way of both.
        ends = [fcntl.fcntl(it, fcntl.F_DUPFD_CLOEXEC, 10) for it in (reads, writes)]

        def place():
            os.dup2(ends[0], 3)
            os.dup2(ends[1], 4)

        quiet = {"stdin": subprocess.DEVNULL, "stdout": subprocess.DEVNULL}
        # (what is opened here ends at exec, but for what is put in place)
        quiet |= {"close_fds": False, "preexec_fn": place}
        with open(f"{self.folder}/log", "wb") as log:
            self.ran = subprocess.Popen(words, stderr=log, **quiet)
        for it in (reads, writes, *ends):
            os.close(it)
        self.number, self.session, self.left, self.events = 0, None, b"", []
        target = self.ask("Target.createTarget", url="about:blank")["targetId"]
        found = self.ask("Target.attachToTarget", targetId=target, flatten=True)
        self.session = found["sessionId"]
        for it in ("Page", "Runtime"):
            self.ask(f"{it}.enable")

    def __enter__(self):
        return self

    def __exit__(self, *given):
        self.ran.terminate()
        with contextlib.suppress(subprocess.TimeoutExpired):
            self.ran.wait(10)
        self.ran.kill()
        self.ran.wait()
        for it in (self.to, self.of):
            os.close(it)
        shutil.rmtree(self.folder, ignore_errors=True)

    def message(self) -> dict:
        """The next message of the browser. Each ends with a byte 0."""
        until = time.monotonic() + SECONDS
        while b"\0" not in self.left:
            if not select.select([self.of], [], [], max(0, until - time.monotonic()))[0]:
                raise Failed(f"the browser said nothing for {SECONDS} seconds")
            read = os.read(self.of, 1 << 20)
            if not read:
                said = pathlib.Path(self.folder, "log").read_text(errors="replace")
                raise Failed(f"the browser ended: {said[-600:]}")
            self.left += read
        first, _, self.left = self.left.partition(b"\0")
        return json.loads(first)

    def ask(self, method: str, **params) -> dict:
        """Asks the browser for something, and waits for its answer."""
        self.number += 1
        asked = {"id": self.number, "method": method, "params": params}
        if self.session:
            asked["sessionId"] = self.session
        os.write(self.to, json.dumps(asked).encode() + b"\0")
        while True:
            message = self.message()
            if message.get("id") == self.number:
                if "error" in message:
                    raise Failed(f"{method}: {message['error']['message']}")
                return message["result"]
            self.events.append(message.get("method"))

    def open(self, url: str) -> None:
        """Opens a page, and waits until it is there."""
        self.events.clear()
        self.ask("Page.navigate", url=url)
        while "Page.loadEventFired" not in self.events:
            self.events.append(self.message().get("method"))

    def value(self, expression: str):
        """The value of an expression in the page, which may be a promise."""
        how = {"returnByValue": True, "awaitPromise": True, "userGesture": True}
        answer = self.ask("Runtime.evaluate", expression=expression, **how)
        if "exceptionDetails" in answer:
            details = answer["exceptionDetails"]
            raise Failed(details.get("exception", details).get("description", details["text"]))
        return answer["result"].get("value")

    def click(self, element: str) -> None:
        """Clicks in the middle of an element, which an expression names."""
        box = self.value(
            f"(() => {{ const it = {element}; it.scrollIntoView({{ block: 'center' }});"
            " const box = it.getBoundingClientRect();"
            " return [box.left + box.width / 2, box.top + box.height / 2]; })()"
        )
        where = {"x": box[0], "y": box[1], "button": "left", "clickCount": 1}
        for kind in ("mousePressed", "mouseReleased"):
            self.ask("Input.dispatchMouseEvent", type=kind, **where)

    def press(self, key: str) -> None:
        """Presses a key where the focus is."""
        code, text = KEYS.get(key) or (ord(key.upper()), key)
        named = {"key": key, "windowsVirtualKeyCode": code}
        down = {"type": "keyDown", "text": text} if text else {"type": "rawKeyDown"}
        self.ask("Input.dispatchKeyEvent", **down, **named)
        self.ask("Input.dispatchKeyEvent", type="keyUp", **named)

    def type(self, element: str, text: str) -> None:
        """Puts a text in the place of what stands in a field, as one change."""
        self.value(f"(() => {{ const it = {element}; it.focus(); it.select(); }})()")
        if text:
            self.ask("Input.insertText", text=text)
        else:
            self.press("Backspace")

    def picture(self, file: str) -> None:
        """Writes what is seen as a PNG of few colours."""
        taken = self.ask("Page.captureScreenshot", format="png", captureBeyondViewport=True)
        pathlib.Path(file).write_bytes(pngs.reduced(base64.b64decode(taken["data"])))


@contextlib.contextmanager
def served(words: list) -> Iterator[str]:
    """The address at which a command serves, which is the first word that it prints."""
    with tempfile.TemporaryFile("w+") as said:
        ran = subprocess.Popen(words, stdout=subprocess.PIPE, stderr=said, text=True)
        try:
            line = ran.stdout.readline()
            if not line:
                said.seek(0)
                raise Failed(said.read().strip())
            yield line.split()[0]
        finally:
            ran.terminate()
            ran.communicate()
