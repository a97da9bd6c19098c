"""What `tools/bench --large` runs: sources with one very large thing, and how long it may take."""
import resource
import subprocess


def application(app, **more):
    return {"root": "App", "components": {"App": app, **more.pop("components", {})}, **more}


def text(name):
    return {"text": {"get": name}}


def many(count, name, *item):
    return {"list": count, "as": name, "item": list(item)}


def items(size):
    """One list of so many items."""
    item = {"el": "li", "kids": [text("place")]}
    return application({"view": [{"el": "ol", "kids": [many(size, "place", item)]}]})


def spawns(size):
    """So many polls, each of which spawns the next task."""
    spawn = {"spawn": "next", "task": "Task", "args": [{"get": "count"}]}
    more = {"write": "count", "be": {"add": [{"read": "count"}, 1]}}
    again = {"when": {"lt": [{"read": "count"}, size - 1]}, "do": [more, spawn]}
    task = {"params": ["count"], "steps": [[again]]}
    app = {"do": [{"cell": "count", "init": 0}, spawn], "view": ["spawns"]}
    return application(app, tasks={"Task": task})


def lists(size):
    """A list of lists, each of so many items."""
    return application({"view": [many(size, "row", many(size, "place", text("place")))]})


def attributes(size):
    """An element with so many attributes."""
    attrs = {f"a{place}": f"value {place}" for place in range(size)}
    return application({"view": [{"el": "div", "attrs": attrs}]})


def listeners(size):
    """An element with so many listeners."""
    on = {f"on{place}": {"do": "Act", "args": []} for place in range(size)}
    return application({"view": [{"el": "div", "on": on}]}, actions={"Act": {"do": []}})


def params(size):
    """A component with so many params."""
    names = [f"p{place}" for place in range(size)]
    return application({"params": names, "view": [text(names[-1])]}, props=list(range(size)))


def contexts(size):
    """A component that provides under so many keys, and one that looks the last of them up."""
    gives = [{"provide": f"key {place}", "be": place} for place in range(size)]
    reader = {"view": [{"text": {"context": f"key {size - 1}"}}]}
    app = {"do": gives, "view": [{"use": "Reader"}]}
    return application(app, components={"Reader": reader})


# What each of them is at its size, and the seconds that it should take at most.
CASES = {
    "items": (items, 10_000, 0.2),
    "spawns": (spawns, 9_990, 0.5),
    "lists": (lists, 300, 2),
    "attributes": (attributes, 100_000, 5),
    "listeners": (listeners, 50_000, 5),
    "params": (params, 60_000, 5),
    "contexts": (contexts, 100_000, 5),
}
# The word --make, which wants no source.
MADE, MADE_SECONDS = 10_000, 0.2


def took(words, given, limit):
    """Processor seconds of a run, and its status; None where it didn't end in the limit."""
    before = resource.getrusage(resource.RUSAGE_CHILDREN)
    outs = {"stdout": subprocess.DEVNULL, "stderr": subprocess.DEVNULL}
    try:
        ran = subprocess.run(words, stdin=given, timeout=limit, **outs)
    except subprocess.TimeoutExpired:
        return None, None
    after = resource.getrusage(resource.RUSAGE_CHILDREN)
    return after.ru_utime + after.ru_stime - before.ru_utime - before.ru_stime, ran.returncode


def told(name, size, most, seconds, status):
    """The line of a run."""
    if seconds is None:
        return f"{name:12}{size:9,}{'no end':>10}{most:9}"
    ended = f"  status {status}" if status else ""
    return f"{name:12}{size:9,}{seconds:10.3f}{most:9}{ended}"


def measure(program, names, write, limit=120):
    """The lines of all runs, one by one. `write` puts a source into a file of that name."""
    yield f"{'case':12}{'size':>9}{'seconds':>10}{'at most':>9}"
    ran = took([program, "--make", str(MADE)], subprocess.DEVNULL, limit)
    yield told("--make", MADE, MADE_SECONDS, *ran)
    for name in names:
        source, size, most = CASES[name]
        with open(write(name, source(size)), "rb") as given:
            yield told(name, size, most, *took([program], given, limit))
