"""An application that is given to the program line by line, and what it answers."""
import contextlib
import json
import os
import select
import subprocess
import time
from collections.abc import Iterator

import bounded

LAST = ("report ", "refused", "fault ")
READ = 1 << 20


class Passed(Exception):
    """A bound that a program has passed and was ended for, in words."""


class Stream:
    """The program with the word --stream, or another one for it, one line after another.

    `goes_on` says whether more may be asked: not once the program has ended, or is about to."""

    def __init__(
        self, command: list, bounds: bounded.Bounds | None = None, word: str = "--stream", **how
    ):
        pipe = subprocess.PIPE
        how = {"stderr": subprocess.DEVNULL, **how}
        self.process = subprocess.Popen([*command, word], stdin=pipe, stdout=pipe, **how)
        self.bounds, self.goes_on, self.rest = bounds, True, b""

    def __enter__(self):
        return self

    def __exit__(self, *_):
        self.end()

    def more(self, begun: float, count: int) -> bytes:
        """Some bytes that the program writes, none at its end. Past a bound, if it has any, it is
        ended."""
        out, is_there = self.process.stdout, not self.bounds
        while not is_there:
            is_there = select.select([out], [], [], bounded.SECONDS)[0]
            passed = self.bounds.passed_by(self.process, begun, count)
            if passed:
                self.goes_on = False
                self.kill()
                raise Passed(passed)
        return os.read(out.fileno(), READ)

    def lines(self) -> Iterator[str]:
        """The lines that the program writes, as they come."""
        begun, count, pieces = time.monotonic(), 0, []
        while True:
            piece, newline, rest = self.rest.partition(b"\n")
            pieces.append(piece)
            if newline:
                self.rest = rest
                yield b"".join(pieces).decode()
                pieces = []
                continue
            self.rest = self.more(begun, count)
            if not self.rest:
                return
            count += len(self.rest)

    def answer(self, answers: int) -> list[str]:
        """The lines up to so many reports or refusals, or to a fault."""
        answer = []
        if answers:
            for line in self.lines():
                answer.append(line)
                answers -= line.startswith(LAST)
                if answers == 0 or line.startswith("fault "):
                    break
        self.goes_on = answers == 0 and not (answer and answer[-1].startswith("fault "))
        return answer

    def ask(self, line: bytes, answers: int = 1) -> list[str]:
        """Writes a line, and reads what answers it."""
        try:
            self.process.stdin.write(line + b"\n")
            self.process.stdin.flush()
        except BrokenPipeError:
            self.goes_on = False
        return self.answer(answers)

    def open(self, source: dict) -> list[str]:
        """Writes a source, and reads what answers it and each of its own inputs."""
        return self.ask(one_line(source), 1 + len(source.get("inputs", [])))

    def end(self) -> int:
        """Ends the stream, where it goes on. The status."""
        if not self.process.stdout.closed:
            with contextlib.suppress(BrokenPipeError):
                self.process.stdin.close()
            self.process.stdout.read()
            self.process.wait()
            self.process.stdout.close()
        return self.process.returncode

    def kill(self):
        """Ends the program where it stands."""
        self.process.kill()
        self.end()

    def memory(self) -> int:
        """The bytes of memory in which the program stands."""
        return bounded.memory_of(self.process.pid)


def one_line(value) -> bytes:
    """A value on one line."""
    return json.dumps(value, ensure_ascii=False).encode()


def flat(text: str) -> bytes:
    """A text of JSON on one line: a newline stands in none of its strings."""
    return text.replace("\r", " ").replace("\n", " ").encode()


def parted(lines: list[str]) -> tuple[list[str], list[str], list[str]]:
    """The edits among printed lines, the reports, and the fault, each in order."""
    reports = [line for line in lines if line.startswith("report ")]
    faults = [line for line in lines if line.startswith("fault ")]
    edits = [line for line in lines if not line.startswith(LAST)]
    return edits, reports, faults
