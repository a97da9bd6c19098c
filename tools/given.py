"""What a command was given, of which each part is refused in one line where it can't be used."""
import argparse
import contextlib
import os
import pathlib
import re
import subprocess
import sys
import threading
import time
from collections.abc import Callable, Iterator

TOP = pathlib.Path(__file__).resolve().parent.parent
# It is said what a command waits for after so many seconds, and each time after so many more.
FIRST, EACH = 3, 30


class Words(argparse.ArgumentParser):
    """The words of a command, of which a wrong one is told in one line."""

    def __init__(self, name: str, says: str):
        plain = argparse.RawDescriptionHelpFormatter
        super().__init__(prog=name, description=says, formatter_class=plain)

    def error(self, message: str):
        what = re.sub(r"^argument \S+: ", "", message)
        self.exit(2, f"{self.prog}: {what} (--help says what it takes)\n")


def file(word: str) -> pathlib.Path:
    """The file that a word of a command names."""
    found = pathlib.Path(word)
    if found.is_dir():
        raise argparse.ArgumentTypeError(f"{word} is a folder")
    if not found.exists():
        raise argparse.ArgumentTypeError(f"there is no file {word}")
    if not os.access(found, os.R_OK):
        raise argparse.ArgumentTypeError(f"{word} may not be read")
    return found


def program(word: str) -> pathlib.Path:
    """The program that a word of a command names."""
    found = file(word)
    if not os.access(found, os.X_OK):
        raise argparse.ArgumentTypeError(f"{word} can't be run")
    return found


def port(word: str) -> int:
    """A number of a port, of which 0 is any that is free."""
    if not (word.isdecimal() and int(word) < 65536):
        raise argparse.ArgumentTypeError(f"{word} is no port: a number up to 65535 is wanted")
    return int(word)


def example(word: str) -> str:
    """The name of an example."""
    if not (TOP / "examples" / f"{word}.json").is_file():
        raise argparse.ArgumentTypeError(f"there is no examples/{word}.json")
    return word


def found() -> pathlib.Path:
    """The program that answers now, which tools/program may have to build first."""
    ran = subprocess.run([TOP / "tools" / "program"], stdout=subprocess.PIPE, text=True)
    if ran.returncode:
        sys.exit(ran.returncode)
    return pathlib.Path(ran.stdout.rstrip("\n"))


@contextlib.contextmanager
def telling(name: str, what: Callable[[], str]) -> Iterator[None]:
    """Tells meanwhile what a command waits for, and for how long it has."""
    begun, has_ended = time.monotonic(), threading.Event()

    def tell():
        wait = FIRST
        while not has_ended.wait(wait):
            wait = EACH
            print(f"{name}: {what()}: {time.monotonic() - begun:.0f} s so far", file=sys.stderr)

    teller = threading.Thread(target=tell, daemon=True)
    teller.start()
    try:
        yield
    finally:
        has_ended.set()
        teller.join()


def printed(name: str, source: pathlib.Path) -> str:
    """The lines that ./show prints of a source. A run that ends in a fault has lines too."""
    with open(source, "rb") as stdin, telling(name, lambda: f"./show runs {source}"):
        ran = subprocess.run([TOP / "show"], stdin=stdin, stdout=subprocess.PIPE)
    if ran.returncode not in (0, 4):
        sys.exit(f"{name}: ./show ended with status {ran.returncode} on {source}")
    return ran.stdout.decode()


@contextlib.contextmanager
def one_line(name: str) -> Iterator[None]:
    """Ends a command in one line where a file, a number or a text can't be used."""
    try:
        yield
    except BrokenPipeError:
        os._exit(1)
    except OSError as error:
        where = f"{error.filename}: " if error.filename else ""
        sys.exit(f"{name}: {where}{(error.strerror or str(error)).lower()}")
    except (ValueError, RecursionError) as error:
        sys.exit(f"{name}: {error}")
    except KeyboardInterrupt:
        sys.exit(130)
