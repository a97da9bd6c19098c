"""How long a program takes to answer lines, asked by a client that does nothing else meanwhile."""
import contextlib
import dataclasses
import gc
import os
import pathlib
import subprocess
import time

from streaming import LAST

LASTS = tuple(word.encode() for word in LAST)
READ = 1 << 16
BOUND = 1e-3
OWN = pathlib.Path("/proc/thread-self/schedstat")


class Turns:
    """How long threads were at work, and how long they wanted a processor and had none."""

    def __init__(self, files: list[pathlib.Path]):
        self.files = [os.open(file, os.O_RDONLY) for file in files]

    def close(self):
        """Lets go of the files that tell it."""
        for file in self.files:
            os.close(file)

    def now(self) -> tuple[float, float]:
        """Both so far, in seconds."""
        told = [os.pread(file, 100, 0).split() for file in self.files]
        return sum(int(it[0]) for it in told) / 1e9, sum(int(it[1]) for it in told) / 1e9


@dataclasses.dataclass
class Answers:
    """The seconds that each answer took, from before its line was written until it was read.

    `worked` are those in which the program was at work on it, `waited` those in which the program
    or the client wanted a processor and had none. `away` are the seconds in which processors were
    withheld from the machine meanwhile, where it is a guest of another."""

    took: list[float] = dataclasses.field(default_factory=list)
    worked: list[float] = dataclasses.field(default_factory=list)
    waited: list[float] = dataclasses.field(default_factory=list)
    away: float = 0

    def slow(self) -> str:
        """The answers that took longer than the bound, and what of that is known, in words."""
        at = [k for k, took in enumerate(self.took) if took > BOUND]
        parts = self.took, self.worked, self.waited
        took, worked, waited = (1e3 * sum(of[k] for k in at) for of in parts)
        return (
            f"{len(at)} of {len(self.took)} took longer than a millisecond, {took:.0f} in all: the "
            f"program was at work for {worked:.0f}, it or the client waited for a processor for "
            f"{waited:.0f}; meanwhile processors were withheld from the machine for "
            f"{1e3 * self.away:.0f}"
        )


def within_a_millisecond(took: list[float]) -> tuple[bool, str]:
    """Whether 999 of 1000 of these seconds are, and what they are."""
    took = sorted(took)
    per = [1e6 * took[min(int(len(took) * part), len(took) - 1)] for part in (0.5, 0.999, 1)]
    told = "median {:.0f}, 999 of 1000 at most {:.0f}, slowest {:.0f} microseconds".format(*per)
    return per[1] < 1e6 * BOUND, told


def withheld() -> float:
    """The seconds in which a processor was withheld from this machine so far."""
    with open("/proc/stat", encoding="ascii") as file:
        return int(file.readline().split()[8]) / os.sysconf("SC_CLK_TCK")


def read_answer(of: int) -> bytes:
    """Reads until the last line of an answer is there."""
    answer = b""
    while not (answer.endswith(b"\n") and last_line(answer).startswith(LASTS)):
        more = os.read(of, READ)
        if not more:
            raise ValueError("the program has ended before it answered")
        answer += more
    return answer


def last_line(answer: bytes) -> bytes:
    """The last line of some that end with a newline."""
    return answer[answer.rfind(b"\n", 0, -1) + 1 :]


@contextlib.contextmanager
def undisturbed(threads: list[pathlib.Path]):
    """The client on a processor of its own and the program's threads on another, if there are two;
    and nothing that Python does by itself."""
    free = sorted(os.sched_getaffinity(0))
    gc.collect()
    gc.disable()
    try:
        if len(free) > 1:
            os.sched_setaffinity(0, free[-1:])
            for thread in threads:
                os.sched_setaffinity(int(thread.name), free[-2:-1])
        yield
    finally:
        os.sched_setaffinity(0, free)
        gc.enable()


def measured(process: subprocess.Popen, line: bytes, count: int) -> Answers:
    """The answers of a process to a line, so many times written once the one before is answered."""
    to, of, clock = process.stdin.fileno(), process.stdout.fileno(), time.perf_counter
    threads = list(pathlib.Path(f"/proc/{process.pid}/task").iterdir())
    turns = [Turns([thread / "schedstat" for thread in threads]), Turns([OWN])]
    answers, away = Answers(), withheld()
    with undisturbed(threads):
        (worked, waited), (_, client) = (it.now() for it in turns)
        for _ in range(count):
            begun = clock()
            os.write(to, line)
            read_answer(of)
            answers.took.append(clock() - begun)
            before = worked, waited + client
            (worked, waited), (_, client) = (it.now() for it in turns)
            answers.worked.append(worked - before[0])
            answers.waited.append(waited + client - before[1])
    answers.away = withheld() - away
    for it in turns:
        it.close()
    return answers
