"""The line of text of what an object of JSON tells, as docs/STREAM.md has both."""
import json


def quoted(text: str) -> str:
    return json.dumps(text, ensure_ascii=False)


def named(namespace: str | None, name: str) -> str:
    return name if namespace is None else f"{namespace}:{name}"


def node(told: dict) -> str:
    """A node with those below it."""
    number = f"#{told['id']}"
    if "text" in told:
        return quoted(told["text"]) + number
    if "hole" in told:
        return "_" + number
    parts = [named(told["ns"], told["el"]) + number]
    parts += [named(a["ns"], a["name"]) + "=" + quoted(a["value"]) for a in told["attrs"]]
    parts += ["@" + name for name in told["on"]]
    parts += [node(kid) for kid in told["kids"]]
    return "(" + " ".join(parts) + ")"


def edit(told: dict) -> str:
    line = f"{told['edit']} #{told['id']}"
    if "nodes" in told:
        return " ".join([line, *map(node, told["nodes"])])
    if told["edit"] == "text":
        return f"{line} {quoted(told['text'])}"
    if told["edit"] == "attr":
        value = told["value"]
        ends = " none" if value is None else "=" + quoted(value)
        return f"{line} {named(told['ns'], told['name'])}{ends}"
    return f"{line} {told['name']}" if "name" in told else line


def entry(told: dict) -> str:
    (word, number), = told.items()
    return word if number is True else f"{word}:{number}"


def line(told: dict) -> str:
    """What an object tells, as a line of text."""
    if "edit" in told:
        return edit(told)
    if "report" in told:
        counts = " ".join(f"{word} {told[word]}" for word in ("report", "units", "bodies", "edits"))
        return " ".join([counts, "log", *map(entry, told["log"])])
    if "fault" in told:
        return " ".join(["fault", *(str(value) for value in told.values())])
    return "refused"
