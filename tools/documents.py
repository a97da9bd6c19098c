"""The document of a run, by the lines that were printed of it."""
import json
import re
from collections.abc import Iterator

QUOTED = re.compile(r'"(?:[^"\\]|\\.)*"')
REPORT = re.compile(r"report (\d+)")
NAME = r"[A-Za-z0-9_:-]+"


class Reader:
    """The line of an edit, read from its start to its end."""

    def __init__(self, line):
        self.line, self.at = line, 0

    def take(self, pattern):
        found = re.compile(pattern).match(self.line, self.at)
        if not found:
            raise ValueError(f"not an edit at {self.at}: {self.line}")
        self.at = found.end()
        return found[1] if found.re.groups else found[0]

    def sees(self, text):
        return self.line.startswith(text, self.at)

    def number(self):
        return int(self.take(r"#(\d+)"))

    def quoted(self):
        return json.loads(self.take(QUOTED))

    def value(self):
        """The value of an attribute, or none."""
        if self.sees(" none"):
            return self.take(" none") and None
        return self.take("=") and self.quoted()


class Document:
    """Nodes by their numbers, of which 0 is the root: each has a tag or none, and its parent. An
    element has its attributes, of which those that were taken away are none, and its listeners."""

    def __init__(self):
        self.nodes = {}
        self.numbered(0, None, "", None)

    def built(self, reader, up):
        """The nodes to the end of what stands here, each after a space."""
        numbers = []
        while reader.sees(" "):
            reader.take(" ")
            numbers.append(self.built_node(reader, up))
        return numbers

    def built_node(self, reader, up):
        if reader.sees("("):
            return self.built_element(reader, up)
        text = reader.quoted() if reader.sees('"') else reader.take("_") and ""
        return self.numbered(reader.number(), None, text, up)

    def built_element(self, reader, up):
        reader.take(r"\(")
        tag = reader.take(NAME).split(":")[-1]
        number = self.numbered(reader.number(), tag, "", up)
        while reader.sees(" "):
            reader.take(" ")
            if reader.sees("@"):
                self.nodes[number]["on"].add(reader.take(f"@({NAME})"))
            elif any(map(reader.sees, ("(", '"', "_#"))):
                self.nodes[number]["kids"].append(self.built_node(reader, number))
            else:
                name = reader.take(NAME)
                self.nodes[number]["attrs"][name] = reader.value()
        reader.take(r"\)")
        return number

    def numbered(self, number, tag, text, up):
        node = {"tag": tag, "text": text, "kids": [], "up": up, "attrs": {}, "on": set()}
        self.nodes[number] = node
        return number

    def leave(self, number):
        for kid in self.nodes.pop(number)["kids"]:
            self.leave(kid)

    def apply(self, line):
        reader = Reader(line)
        word = reader.take("[a-z]+")
        reader.take(" ")
        number = reader.number()
        up = self.nodes[number]["up"]
        if word == "append":
            self.nodes[number]["kids"] += self.built(reader, number)
        elif word in ("after", "replace", "remove"):
            row = self.nodes[up]["kids"]
            at = row.index(number)
            gone = [] if word == "after" else [number]
            new = [] if word == "remove" else self.built(reader, up)
            row[at + 1 - len(gone):at + 1] = new
            for one in gone:
                self.leave(one)
        elif word == "text":
            reader.take(" ")
            self.nodes[number]["text"] = reader.quoted()
        elif word == "attr":
            reader.take(" ")
            name = reader.take(NAME)
            self.nodes[number]["attrs"][name] = reader.value()
        elif word in ("listen", "unlisten"):
            reader.take(" ")
            change = set.add if word == "listen" else set.discard
            change(self.nodes[number]["on"], reader.take(NAME))

    def below(self, number=0):
        """The numbers of all nodes below one, in order."""
        for kid in self.nodes[number]["kids"]:
            yield kid
            yield from self.below(kid)


def after_each(lines: list[str]) -> Iterator[tuple[str, Document]]:
    """The line of each report, and the document after it."""
    reports = [line for line in lines if REPORT.match(line)]
    edits = [line for line in lines if not REPORT.match(line) and not line.startswith("fault")]
    document, at = Document(), 0
    for line in reports:
        count = int(re.search(r" edits (\d+)", line)[1])
        for edit in edits[at : at + count]:
            document.apply(edit)
        at += count
        yield line, document
