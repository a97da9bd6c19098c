"""A document on a screen of characters, and an application that is used there by keys."""
import json
import pathlib

import bounded
import documents
import streaming
from pages import source

BLOCKS = {"div", "p", "ul", "ol", "li", "pre", "h1", "h2", "h3", "h4", "h5", "h6"}
FIELDS = {"input", "select", "textarea"}
# What an input can be that no text is typed in.
BOXES, BUTTONS = {"checkbox", "radio"}, {"button", "submit", "reset"}
# A run may take so many seconds, and print so many megabytes.
SECONDS, PRINTED = 60, 64


def layout(document, width, height):
    """The rows of a document on a screen. Of each its characters, and the number of the text that
    each of them is of."""
    done, line = [], []

    def finish():
        done.append(("".join(one for one, _ in line), [number for _, number in line]))
        line.clear()

    def lay(number):
        node = document.nodes[number]
        for one in node["text"]:
            if len(line) >= width:
                finish()
            line.append((one if " " <= one <= "~" else "?", number))
        if node["tag"] == "br" or node["tag"] in BLOCKS and line:
            finish()
        for kid in node["kids"]:
            lay(kid)
        if node["tag"] in BLOCKS and line:
            finish()

    lay(0)
    if line:
        finish()
    return (done + [("", [])] * height)[:height]


def kind_of(node):
    """What an element is for who uses it: a field, a box, a button, or something else."""
    kind = node["attrs"].get("type")
    if node["tag"] == "button" or node["tag"] == "input" and kind in BUTTONS:
        return "button"
    if node["tag"] == "input" and kind in BOXES:
        return "box"
    return "field" if node["tag"] in FIELDS else "element"


def up(document, number):
    """An element and those that it stands in, from the inside."""
    while number:
        yield number
        number = document.nodes[number]["up"]


def is_deaf(document, number):
    """Whether it is, or stands in, something that takes no events."""
    nodes = [document.nodes[it] for it in up(document, number)]
    return any(kind_of(it) != "element" and it["attrs"].get("disabled") is not None for it in nodes)


class Refused(Exception):
    """Why a source is no application, in words."""


class Visit:
    """An application that waits for inputs, its document, and what was typed in its fields.

    `last` is the line that the last answer ends with, `told` what else there is to tell."""

    def __init__(self, program: pathlib.Path, file: pathlib.Path, bounds, inputs: list[str]):
        self.program, self.file, self.bounds = program, file, bounds
        self.inputs, self.own, self.told, self.last = [], {}, "", ""
        self.document = documents.Document()
        self.read = file.read_bytes()
        self.stream = streaming.Stream([program], bounds)
        self.answer(self.source([]))
        if not self.last:
            self.end()
            raise Refused(self.told or self.complaint([]))
        for given in inputs:
            self.take(given)

    def anew(self, inputs: list[str]) -> "Visit":
        """A visit of the source as it stands now, after these inputs. This one ends then."""
        new = Visit(self.program, self.file, self.bounds, inputs)
        self.end()
        return new

    def end(self):
        self.stream.kill()

    def source(self, inputs: list[str]) -> str:
        """The source with these inputs in the place of its own."""
        text = self.read.decode(errors="replace")
        try:
            return source.Source(text).with_inputs(inputs)
        except (ValueError, RecursionError):
            # It isn't in the form: the program says where.
            return text

    def answer(self, text: str) -> bool:
        """Writes JSON as a line, and makes the edits that answer it. Whether it was one."""
        try:
            lines = self.stream.ask(streaming.flat(text))
        except streaming.Passed as passed:
            self.told = f"The program was ended: {passed}."
            return False
        if lines == ["refused"] or not lines:
            return False
        edits, reports, faults = streaming.parted(lines)
        for edit in edits:
            self.document.apply(edit)
        self.last = (faults or reports or [""])[-1]
        return not faults

    def take(self, given: str) -> bool:
        """Makes an input, which is a text of JSON. Whether it was one."""
        if not self.stream.goes_on:
            self.told = self.told or "The run has ended: take back, or begin anew."
            return False
        self.told = ""
        is_one = self.answer(given)
        if is_one or self.last.startswith("fault "):
            self.inputs.append(given)
        elif not self.told:
            self.told = self.complaint([*self.inputs, given])
        return is_one

    def write(self, text: str):
        """Makes an input that was written as JSON."""
        try:
            self.take(source.one_value(text))
        except (ValueError, RecursionError) as error:
            self.told = f"That is no JSON: {error}"

    def complaint(self, inputs: list[str]) -> str:
        """What the program says of the source with these inputs."""
        text = self.source(inputs).encode()
        return bounded.run([self.program], text, self.bounds).complaint

    def hears(self, number: int, event: str) -> bool:
        """Whether a listener hears an event at an element."""
        names = (self.document.nodes[it]["on"] for it in up(self.document, number))
        return any(name[2:] == event for on in names for name in on)

    def text(self, number: int) -> str:
        """What stands in a field."""
        return self.own.get(number, self.document.nodes[number]["attrs"].get("value") or "")

    def is_ticked(self, number: int) -> bool:
        return self.own.get(number, self.document.nodes[number]["attrs"].get("checked") is not None)

    def stops(self) -> list[int]:
        """The elements one can go to: fields, boxes, buttons, and those that hear something."""
        nodes = self.document.nodes
        found = [it for it in self.document.below() if nodes[it]["tag"]
                 and (nodes[it]["on"] or kind_of(nodes[it]) != "element")]
        return [it for it in found if not is_deaf(self.document, it)]

    def happen(self, event: str, number: int, payload: str | int | None = None):
        """Makes an input of an event, where a listener hears it. What is heard of a field, the
        document decides where it has a value for it."""
        if number not in self.document.nodes or not self.hears(number, event):
            return
        given = {"event": event, "element": number}
        given |= {} if payload is None else {"payload": payload}
        self.take(json.dumps(given, ensure_ascii=False))
        node = self.document.nodes.get(number)
        if node and event in ("input", "change") and ("value" in node["attrs"] or
                                                      kind_of(node) == "box"):
            self.own.pop(number, None)

    def press(self, number: int):
        """A click at an element."""
        kind = kind_of(self.document.nodes[number])
        if is_deaf(self.document, number):
            return
        is_ticked = kind == "box" and not self.is_ticked(number)
        self.happen("click", number)
        if kind == "box":
            self.own[number] = is_ticked
            self.happen("change", number, int(is_ticked))
        elif kind == "button":
            self.submit(number)

    def submit(self, number: int):
        """What is in the form round an element is sent."""
        if number not in self.document.nodes:
            return
        nodes = self.document.nodes
        form = next((it for it in up(self.document, number) if nodes[it]["tag"] == "form"), None)
        if form:
            fields = (it for it in self.document.below(form) if nodes[it]["tag"] in FIELDS)
            field = next(fields, None)
            self.happen("submit", form, None if field is None else self.text(field))

    def type(self, number: int, key: str):
        """A key in a field, or at another element. It has the name that browsers give it."""
        self.happen("keydown", number, key)
        node = self.document.nodes.get(number)
        if not node or kind_of(node) != "field":
            return
        old = self.text(number)
        line = "\n" if key == "Enter" and node["tag"] == "textarea" else ""
        new = old[:-1] if key == "Backspace" else old + (key if len(key) == 1 else line)
        if new != old:
            self.own[number] = new
            self.happen("input", number, new)
        elif key == "Enter":
            self.happen("change", number, old)
            self.submit(number)
