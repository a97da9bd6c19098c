"""What `tools/bench --beside` prints: the program beside plain Rust, React, Preact and Vue.

README.md of this folder says what each of them is. Nothing of them is proved."""
import concurrent.futures
import datetime
import os
import pathlib
import resource
import shutil
import subprocess
import sys

import loads

HERE = pathlib.Path(__file__).resolve().parent
LIBRARIES = {"react": "React", "preact": "Preact", "vue": "Vue"}
# Where Debian's packages put modules for node.
MODULES = "/usr/share/nodejs"
# The size that a library is checked at, and callgrind's time in times of the run's own.
SMALL, SLOWER = 20, 60


def native(folder):
    """The program of native/, built by rustc."""
    words = ["rustc", "-O", "--edition", "2021", "-A", "warnings", HERE / "native" / "program.rs"]
    subprocess.run([*words, "-o", folder / "native"], check=True)
    return str(folder / "native")


def printed(command, source):
    with open(source, "rb") as given:
        return subprocess.run(command, stdin=given, capture_output=True, env=environment()).stdout


def environment():
    paths = [MODULES, *os.environ.get("NODE_PATH", "").split(":")]
    return {**os.environ, "NODE_ENV": "production", "NODE_PATH": ":".join(filter(None, paths))}


def script(library, load, size):
    return ["node", str(HERE / "run.js"), library, str(load), str(size)]


def libraries():
    """Those that node finds here."""
    def is_there(name):
        tried = subprocess.run(["node", "-e", f"require('{name}')"], env=environment(),
                               cwd=HERE, capture_output=True)
        return b"MODULE_NOT_FOUND" not in tried.stderr

    if not shutil.which("node"):
        return []
    return [it for it in LIBRARIES if is_there("react-dom" if it == "react" else it)]


def versions(count, known):
    """What was measured with, in a line."""
    def said(*words):
        ran = subprocess.run(words, env=environment(), cwd=HERE, capture_output=True, text=True)
        return ran.stdout.strip()

    tools = [count.__name__.removeprefix("by_"), said("rustc", "--version").partition(" (")[0]]
    if known:
        tools.append(f"node {said('node', '--version')}")
    asked = ((it, f"require('{it}/package.json').version") for it in known)
    tools += [f"{LIBRARIES[it]} {said('node', '-p', code)}" for it, code in asked]
    return f"Measured on {datetime.date.today()}, with {', '.join(tools)}."


def differing(program, known, load, source, folder):
    """The libraries that show other than the program's edits make, after the build or an input."""
    lines = folder / "lines"
    lines.write_bytes(printed([program], source))
    wanted = printed([*script("edits", lines, ""), "--steps"], source) if known else b""
    for library in known:
        if not wanted or printed([*script(library, load, SMALL), "--steps"], source) != wanted:
            yield LIBRARIES[library]


def check(program, known, sources, folder):
    """Stops where a library shows other than the program does."""
    for load, source in sources.items():
        for library in differing(program, known, load, source, folder):
            sys.exit(f"bench: {library} shows other than the program on {load}")


def differences(program, known, sources, folder):
    """Of each load what differs: plain Rust by what it prints, libraries by what they show."""
    plain = native(folder)
    for load, source in sources.items():
        said = printed([program], source)
        is_same = said and printed([plain], source) == said
        found = [] if is_same else ["plain Rust"]
        yield load, [*found, *differing(program, known, load, source, folder)]


def milliseconds(command, source):
    """Processor milliseconds of a whole run."""
    before = resource.getrusage(resource.RUSAGE_CHILDREN)
    with open(source, "rb") as given:
        outs = {"stdout": subprocess.DEVNULL, "stderr": subprocess.DEVNULL}
        subprocess.run(command, stdin=given, env=environment(), **outs)
    after = resource.getrusage(resource.RUSAGE_CHILDREN)
    return 1000 * (after.ru_utime + after.ru_stime - before.ru_utime - before.ru_stime)


def told(command, source):
    """The processor milliseconds that a library says it took."""
    with open(source, "rb") as given:
        ran = subprocess.run(command, stdin=given, capture_output=True, env=environment())
    return float(ran.stderr.split()[-1])


def peak(program, source):
    """The most memory that a run had at a time, in kilobytes, as GNU time tells it."""
    if not os.access("/usr/bin/time", os.X_OK):
        return None
    with open(source, "rb") as given:
        words = ["/usr/bin/time", "-f", "%M", program]
        ran = subprocess.run(words, stdin=given, stdout=subprocess.DEVNULL, stderr=subprocess.PIPE)
    return int(ran.stderr.split()[-1])


def in_digits(value):
    return f"{value:,.2f}" if value < 10 else f"{value:,.1f}" if value < 100 else f"{value:,.0f}"


def row(*cells):
    return "| " + " | ".join(cells) + " |"


def counted(count, programs, sources, least, patience):
    """Millions of instructions of each program on each source, less those of the least source.

    None where counting would take longer than so many seconds."""
    starts = {name: count(it, least) for name, it in programs.items()}
    counts = {(name, key): None for key in sources for name in programs}
    # (how long a run takes is asked one by one: it is told of all children of this process)
    most = 1000 * patience / SLOWER
    short = [it for it in counts if milliseconds([programs[it[0]]], sources[it[1]]) <= most]
    with concurrent.futures.ThreadPoolExecutor(os.cpu_count()) as pool:
        found = pool.map(lambda it: count(programs[it[0]], sources[it[1]]), short)
        for it, instructions_of in zip(short, found):
            counts[it] = max(instructions_of - starts[it[0]], 1) / 1e6
    return counts


def instructions(programs, sources, counts):
    """The table of instructions, and of the exponents by which they grow from the least size on."""
    yield row("load", "size", "plain Rust", "the program", "times", "its growth", "the program's")
    yield row("---", *["---:"] * 6)
    firsts = {}
    for (load, size), source in sources.items():
        said = [printed([it], source) for it in programs.values()]
        both = [counts[name, (load, size)] for name in programs]
        cells = [in_digits(it) if it else "" for it in both]
        cells.append(in_digits(both[1] / both[0]) if all(both) else "")
        for name, it in zip(programs, both):
            first = firsts.setdefault((name, load), (size, it))
            grown = loads.growth(load, first, (size, it))
            cells.append("" if grown is None else f"{grown:.2f}")
        yield row(load if said[0] == said[1] else f"{load} (other output)", f"{size:,}", *cells)


def taken(programs, sources, calls, least):
    """The table of memory and of calls of the system, of the start and of each load."""
    heads = "plain Rust's memory", "the program's", "times", "plain Rust's calls"
    yield row("load", "size", *heads, "the program's", "times")
    yield row("---", *["---:"] * 7)
    for (load, size), source in {("start", ""): least, **sources}.items():
        cells = []
        for measured in peak, calls:
            both = [measured(it, source) for it in programs.values()]
            cells += [f"{it:,}" if it else "" for it in both]
            cells.append(in_digits(both[1] / both[0]) if all(both) else "")
        yield row(load, f"{size:,}" if size else "", *cells)


def side_by_side(programs, known, sources, least, repeats=5):
    """Processor milliseconds of each, the least of some runs in turn.

    Of a program those of a whole run less those of the least source, of a library those from its
    first view on."""
    own = {"the program": [programs["ours"]], "plain Rust": [programs["native"]]}
    starts = {
        name: min(milliseconds(it, least) for _ in range(repeats)) for name, it in own.items()
    }

    def once(load, size, source):
        took = {name: milliseconds(it, source) - starts[name] for name, it in own.items()}
        return {**took, **{LIBRARIES[it]: told(script(it, load, size), source) for it in known}}

    yield row("load", "size", *own, *(LIBRARIES[it] for it in known))
    yield row("---", *["---:"] * (1 + len(own) + len(known)))
    for (load, size), source in sources.items():
        runs = [once(load, size, source) for _ in range(repeats)]
        least_of = (min(it[name] for it in runs) for name in runs[0])
        yield row(load, f"{size:,}", *(in_digits(max(it, 0)) for it in least_of))


def tables(program, measures, sources, small, least, folder, patience):
    """All tables, line by line. Sources stand under load and size, small ones under the load."""
    programs = {"native": native(folder), "ours": program}
    known = libraries()
    check(program, known, small, folder)
    count, calls = measures
    counts = counted(count, programs, sources, least, patience)
    yield versions(count, known)
    yield ""
    yield from instructions(programs, sources, counts)
    yield ""
    yield from taken(programs, sources, calls, least)
    yield ""
    yield from side_by_side(programs, known, sources, least)
