"""A run of a program within bounds of time, of memory and of what it prints."""
import dataclasses
import os
import pathlib
import select
import subprocess
import tempfile
import time

PAGE = os.sysconf("SC_PAGE_SIZE")
MEGABYTE = 1_000_000
# The bounds are looked at so often.
SECONDS = 0.05


@dataclasses.dataclass(frozen=True)
class Bounds:
    """At most so many seconds, megabytes of memory and megabytes of printed bytes."""

    seconds: int
    memory: int
    printed: int

    def passed_by(self, ran: subprocess.Popen, begun: float, printed: int) -> str | None:
        """What a run has passed, in words, or None."""
        if time.monotonic() - begun > self.seconds:
            return f"it had not ended after {self.seconds} seconds"
        if printed > self.printed * MEGABYTE:
            return f"it printed more than {self.printed} megabytes"
        if memory_of(ran.pid) > self.memory * MEGABYTE:
            return f"it took more than {self.memory} megabytes of memory (--memory)"
        return None


@dataclasses.dataclass(frozen=True)
class Ran:
    """How a run ended: its status, what it printed and said, and the bound that ended it."""

    status: int
    printed: bytes
    said: str
    passed: str | None

    @property
    def complaint(self) -> str:
        """What is to be told of it; of a run that ended well, what it said itself."""
        if self.passed:
            return f"The program was ended: {self.passed}."
        if self.status < 0:
            return f"The program was ended by signal {-self.status}. {self.said}"
        return self.said or (f"The program ended with status {self.status}." if self.status else "")


def memory_of(number: int) -> int:
    """The bytes of memory in which a process stands."""
    try:
        fields = pathlib.Path(f"/proc/{number}/statm").read_text(encoding="ascii").split()
    except OSError:
        return 0
    return int(fields[1]) * PAGE


def run(command: list, given: bytes, bounds: Bounds) -> Ran:
    """Runs a program on some bytes, to its end or to a bound."""
    with tempfile.TemporaryFile() as stdin, tempfile.TemporaryFile() as said:
        stdin.write(given)
        stdin.seek(0)
        how = {"stdin": stdin, "stdout": subprocess.PIPE, "stderr": said}
        ran, begun = subprocess.Popen(command, **how), time.monotonic()
        printed, passed = bytearray(), None
        with ran, ran.stdout:
            while not passed:
                if select.select([ran.stdout], [], [], SECONDS)[0]:
                    read = os.read(ran.stdout.fileno(), 1 << 20)
                    if not read:
                        break
                    printed += read
                passed = bounds.passed_by(ran, begun, len(printed))
            if passed:
                ran.kill()
        said.seek(0)
        text = said.read().decode(errors="replace").strip()
    return Ran(ran.returncode, bytes(printed), text, passed)
