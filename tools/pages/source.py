"""A source as a text, in which inputs are put in the place of its own. All else stays as it is."""
import json
import json.decoder
import pathlib
import re

SPACES = re.compile(r"[ \t\n\r]*")
# (numbers aren't read as such, so that none is too long)
DECODER = json.JSONDecoder(parse_int=str, parse_float=str)


def skipped(text: str, at: int) -> int:
    """The place behind the spaces that stand here."""
    return SPACES.match(text, at).end()


def after(text: str, at: int, sign: str) -> int:
    """The place behind a sign, and behind the spaces round it."""
    at = skipped(text, at)
    if text[at : at + 1] != sign:
        raise ValueError(f"at {at}: {sign} was wanted")
    return skipped(text, at + 1)


def one_value(text: str) -> str:
    """A text of one value of JSON, without spaces round it."""
    begin = skipped(text, 0)
    _, end = DECODER.raw_decode(text, begin)
    if skipped(text, end) != len(text):
        raise ValueError(f"more stands behind the value, from {end} on")
    return text[begin:end]


def values_in(text: str, begin: int) -> list[str]:
    """The texts of the values of a list that begins here."""
    at, found = after(text, begin, "["), []
    while text[at : at + 1] != "]":
        if found:
            at = after(text, at, ",")
        _, end = DECODER.raw_decode(text, at)
        found.append(text[at:end])
        at = skipped(text, end)
    return found


class Source:
    """A source, the texts of its inputs, and where they stand in it."""

    def __init__(self, text: str):
        self.text = text
        # The span of the list of inputs, if there is one; and the end of the last value.
        self.span, self.end = None, None
        at = after(text, 0, "{")
        while text[at : at + 1] != "}":
            if self.end:
                at = after(text, at, ",")
            key, at = json.decoder.scanstring(text, after_quote(text, at), True)
            begin = after(text, at, ":")
            _, self.end = DECODER.raw_decode(text, begin)
            # (where a key comes twice, the last one counts)
            if key == "inputs":
                self.span = begin, self.end
            at = skipped(text, self.end)
        self.inputs = values_in(text, self.span[0]) if self.span else []

    def with_inputs(self, inputs: list[str]) -> str:
        """The source with these inputs, which are texts, in the place of its own."""
        if inputs == self.inputs or self.end is None:
            return self.text
        rows = ",\n    ".join(inputs)
        value = f"[\n    {rows}\n  ]" if inputs else "[]"
        if self.span:
            return self.text[: self.span[0]] + value + self.text[self.span[1] :]
        return f'{self.text[: self.end]},\n  "inputs": {value}{self.text[self.end :]}'


def after_quote(text: str, at: int) -> int:
    if text[at : at + 1] != '"':
        raise ValueError(f"at {at}: a key was wanted")
    return at + 1


def read(file: pathlib.Path) -> Source:
    """The source of a file."""
    try:
        return Source(file.read_bytes().decode())
    except ValueError as error:
        raise ValueError(f"{file} is no source: {error}") from error
