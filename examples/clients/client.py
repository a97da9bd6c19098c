#!/usr/bin/env python3
"""Drives an application: client.py SOURCE.json, then inputs on standard input, one a line.
It prints what the program answers: of each input its edits and its report, or `refused`."""
import contextlib
import json
import pathlib
import subprocess
import sys

SHOW = pathlib.Path(__file__).resolve().parents[2] / "show"


def ask(process, line, answers=1):
    """Writes a line, and gives those that answer it."""
    print(line, file=process.stdin, flush=True)
    for answer in process.stdout:
        yield answer
        answers -= answer.startswith(("report ", "refused"))
        if answers == 0 or answer.startswith("fault "):
            return


source = json.loads(pathlib.Path(sys.argv[1]).read_bytes())
app = subprocess.Popen([SHOW, "--stream"], stdin=-1, stdout=-1, encoding="utf-8")
with contextlib.suppress(BrokenPipeError), app:
    # The build has an answer, and so has each input that stands in the source.
    sys.stdout.writelines(ask(app, json.dumps(source), 1 + len(source.get("inputs", []))))
    for given in sys.stdin:
        sys.stdout.writelines(ask(app, given.rstrip("\n")))
sys.exit(app.returncode)
