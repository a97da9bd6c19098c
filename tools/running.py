"""The processes of this machine, and what a run of the kit's command rt does in each of them.

    python3 tools/running.py NUMBER [WORD]

prints the processor time, in seconds, that a process and all below it have used; with a word, the
numbers of those whose command has it."""
import dataclasses
import os
import pathlib
import re
import sys
from collections.abc import Iterator

TICKS = os.sysconf("SC_CLK_TCK")
CRATE = r"--crate-name (\w+)", r"/crates/(\w+)"
# An edit that the check must refuse is tried on a copy of its crate in a folder of this name.
EDITED = re.compile(r"/rt-edits?-\d+-")


@dataclasses.dataclass(frozen=True)
class Process:
    """A process: its age and processor time in seconds, that of children that ended, its folder,
    the words of its command."""

    number: int
    parent: int
    begun: int
    age: float
    used: float
    ended: float
    folder: str
    words: str

    @property
    def checks(self) -> bool:
        """Whether it is a check or a build of a crate."""
        return re.search(r"/rattle (check|build)\b", self.words) is not None

    @property
    def crate(self) -> str | None:
        """The crate that it works on: that of its command, else that of its folder."""
        places = (self.words, CRATE[0]), (f"{self.folder}/", CRATE[1]), (self.words, CRATE[1])
        found = (re.search(pattern, text) for text, pattern in places)
        return next((it[1] for it in found if it), None)

    @property
    def kind(self) -> str:
        """What its time is spent on: the crate's own proofs, its tests or its edits."""
        if EDITED.search(self.folder):
            return "edits"
        is_of_tests = " --test " in f"{self.words} " or re.search(r"_tests(\.o)?\b", self.words)
        return "tests" if is_of_tests else "own"


def processes() -> Iterator[Process]:
    """All processes that can be looked into. One that ends meanwhile is left out."""
    with open("/proc/uptime", encoding="ascii") as file:
        now = float(file.read().split()[0])
    for at in pathlib.Path("/proc").glob("[0-9]*"):
        try:
            words = (at / "cmdline").read_bytes().replace(b"\0", b" ").decode(errors="replace")
            folder = os.readlink(at / "cwd")
            # The name stands in parentheses, and may hold any sign; the fields come behind it.
            fields = (at / "stat").read_text(errors="replace").rpartition(")")[2].split()
        except OSError:
            continue
        begun, age = int(fields[19]), now - int(fields[19]) / TICKS
        used, ended = (sum(map(int, fields[k : k + 2])) / TICKS for k in (11, 13))
        yield Process(int(at.name), int(fields[1]), begun, age, used, ended, folder, words)


def below(top: int) -> list[Process]:
    """A process and all that it started, and these started in turn."""
    found = {it.number: it for it in processes()}
    children: dict[int, list[int]] = {}
    for it in found.values():
        children.setdefault(it.parent, []).append(it.number)
    numbers = [top]
    for number in numbers:
        numbers += children.get(number, ())
    return [found[number] for number in numbers if number in found]


def main():
    top, *words = sys.argv[1:]
    found = below(int(top))
    if words:
        print(*(it.number for it in found if words[0] in it.words), sep="\n")
    else:
        print(round(sum(it.used + it.ended for it in found)))


if __name__ == "__main__":
    main()
