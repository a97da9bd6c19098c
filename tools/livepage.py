"""A page of tools/live in a browser, as its checks use it, and sources to try."""
import contextlib
import json
import time

import browser
import given
import running
from given import TOP

SECONDS = 10
SAID = "document.getElementById('said').innerText"
BUSY = "document.getElementById('busy')"

BETWEEN = """#!/bin/bash
[ "$1" = --stream ] || exec "{program}" "$@"
exec 3> >(exec "{program}" --stream)
while IFS= read -r line; do
    {each}
    printf '%s\\n' "$line" >&3
done
"""


def source(view, do=(), **parts):
    """A source of one component."""
    app = {"do": list(do), "view": view}
    return json.dumps({"components": {"App": app}, "root": "App", **parts}, indent=1) + "\n"


def button(action, *args, name="onclick"):
    """A button with a text, that calls an action."""
    return {"el": "button", "on": {name: {"do": action, "args": list(args)}}, "kids": ["press"]}


def element(number):
    return f"page.shown.node({number})"


def counter(*view):
    """A source with a cell that a button's click makes one more, and other nodes before it."""
    cell = {"get": "n"}
    do = [{"write": "n", "be": {"add": [{"read": "n"}, 1]}}]
    more = {"More": {"params": ["n"], "do": do}}
    view = [*view, button("More", cell), {"text": {"read": "n"}}]
    return source(view, [{"cell": "n", "init": 0}], actions=more)


class Page:
    """A page of tools/live on a source in a folder."""

    def __init__(self, page, folder, program):
        self.page, self.folder, self.program = page, folder, program
        self.file = folder / "source.json"

    @contextlib.contextmanager
    def serves(self, text, *words):
        """Serves a source, and opens its page."""
        self.file.write_text(text, encoding="utf-8")
        program = ["--program", self.program] if self.program else []
        with browser.served([TOP / "tools" / "live", self.file, *program, *words]) as address:
            self.page.open(address)
            self.rests()
            yield address

    def stands(self, name, each):
        """A program that stands before the one that answers, and does this with each line first."""
        file, program = self.folder / name, self.program or given.found()
        file.write_text(BETWEEN.format(program=program, each=each), encoding="utf-8")
        file.chmod(0o755)
        return file

    def value(self, expression):
        return self.page.value(expression)

    def rests(self):
        self.value("page.settled()")

    def texts(self):
        self.rests()
        return self.value("page.shown.texts()")

    def held(self):
        self.rests()
        return dict(self.value("page.shown.held()"))

    def said(self):
        """The complaint that is shown."""
        self.rests()
        return self.value(SAID)

    def refused(self, first, second, attribute):
        """Those of two tags and of an attribute that this browser refuses."""
        for call in (f"createElement('{first}')", f"createElement('{second}')",
                     f"body.setAttribute('{attribute}', '')"):
            try:
                self.value(f"void document.{call}")
            except browser.Failed:
                yield call.split("'")[1]

    def notes(self):
        return self.value("document.getElementById('notes').innerText")

    def click(self, number):
        self.page.click(element(number))

    def send(self, text):
        """Sends an input as JSON."""
        self.page.type("document.getElementById('text')", text)
        self.page.click("document.querySelector('#other button')")
        self.rests()

    def waiting(self):
        """The programs that wait for inputs."""
        all_of_them = list(running.processes())
        servers = {it.number for it in all_of_them if f"live {self.file} " in f"{it.words} "}
        return [it for it in all_of_them if it.parent in servers]

    def comes(self, expression, seconds=SECONDS):
        """Whether an expression becomes true in so many seconds."""
        until = time.monotonic() + seconds
        while time.monotonic() < until:
            if self.value(expression):
                return True
            time.sleep(0.05)
        return False
