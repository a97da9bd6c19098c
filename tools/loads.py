"""The loads of tools/bench: sources of docs/LANGUAGE.md, each by its size."""
import math


def get(name):
    return {"get": name}


def read(name):
    return {"read": name}


def less(low, high):
    return {"lt": [low, high]}


def plus(value, more):
    return {"add": [value, more]}


def text(*pieces):
    """A text of these pieces, or of the one that is given."""
    return {"text": pieces[0] if len(pieces) == 1 else {"cat": list(pieces)}}


def element(tag, *kids):
    return {"el": tag, "kids": list(kids)}


def button(shown, action, *args):
    on = {"onclick": {"do": action, "args": list(args)}}
    return {"el": "button", "on": on, "kids": [shown]}


def use(component, *props):
    return {"use": component, "props": list(props)}


def many(count, name, *item):
    return {"list": count, "as": name, "item": list(item)}


def either(test, then, other=None):
    """One of two nodes, or nothing where the test fails and no other is given."""
    return {"pick": [test, [then], [] if other is None else [other]]}


def cell(name, value=0):
    return {"cell": name, "init": value}


def write(name, value):
    return {"write": name, "be": value}


def memo(name, value):
    return {"memo": name, "be": value}


def context(name, key):
    return {"let": name, "be": {"context": key}}


def component(*view, params=(), do=()):
    made = {"params": list(params), "do": list(do), "view": list(view)}
    return {key: it for key, it in made.items() if it}


def application(components, inputs, **more):
    return {"root": "App", "components": components, "inputs": inputs, **more}


def turns(count):
    """So many writes to the first cell, of 0 and 1 by turns."""
    return [write(1, k % 2) for k in range(count)]


def counts(count):
    """So many writes to the first cell, of 1 and what follows."""
    return [write(1, k + 1) for k in range(count)]


def in_sections(nodes):
    """These nodes in sections of at most a hundred."""
    starts = range(0, len(nodes), 100)
    return element("main", *(element("section", *nodes[it : it + 100]) for it in starts))


def rows(size):
    """So many rows with a cell each, and a write to every cell, in an order that jumps."""
    app = component(element("ul", many(size, "place", use("Row", get("place")))))
    shown = element("li", text(read("value")))
    row = component(shown, params=["place"], do=[cell("value", get("place"))])
    writes = [write(7 * k % size + 1, k) for k in range(size)]
    return application({"App": app, "Row": row}, writes)


def growing_list(size):
    """A list that grows by one item a click, and then shrinks again."""
    def button_by(by):
        return button(str(by), "Add", get("count"), by)

    items = many(read("count"), "place", use("Item", get("place")))
    app = component(button_by(1), button_by(-1), element("ol", items), do=[cell("count")])
    item = component(element("li", text("item ", get("place"))), params=["place"])
    more = write("count", plus(read("count"), get("by")))
    add = {"params": ["count", "by"], "do": [more]}
    clicks = [{"event": "click", "element": it} for it in [1] * size + [3] * size]
    return application({"App": app, "Item": item}, clicks, actions={"Add": add})


def deep_reader(size):
    """A reader of a context's cell at a depth of a 16th of the size, and 2,000 writes."""
    given = [cell("value"), {"provide": "value", "be": get("value")}]
    app = component(use("Level", max(2, size // 16)), do=given)
    lower = use("Level", plus(get("left"), -1))
    level = component(either(less(get("left"), 2), use("Reader"), lower), params=["left"])
    shown = element("p", text(read("value")))
    reader = component(shown, do=[context("value", "value")])
    return application({"App": app, "Level": level, "Reader": reader}, counts(2000))


def many_readers(size):
    """So many readers of one cell, and 200 writes."""
    readers = many(size, "place", use("Reader", get("value")))
    app = component(element("ul", readers), do=[cell("value")])
    reader = component(element("li", text(read("value"))), params=["value"])
    return application({"App": app, "Reader": reader}, counts(200))


def boundaries(size):
    """So many suspense boundaries, each held by a task that is woken once."""
    page = use("Page", get("place"))
    held = {"boundary": "suspense", "kids": [page], "fallback": use("Waiting")}
    waits = [
        cell("there"),
        {"spawn": "load", "task": "Load", "args": [get("there")]},
        {"when": {"not": read("there")}, "do": [{"suspend": "load"}]},
    ]
    shown = element("p", text("page ", get("place")))
    components = {
        "App": component(many(size, "place", held)),
        "Page": component(shown, params=["place"], do=waits),
        "Waiting": component("waiting"),
    }
    load = {"params": ["there"], "steps": [[], [write("there", 1)]]}
    wakes = [{"wake": 7 * k % size + 1} for k in range(size)]
    return application(components, wakes, tasks={"Load": load})


def subtree(size):
    """A subtree of 501 nodes, dropped and built again, half as often as the size says."""
    row = element("p", element("b", text(get("place"))), element("i", "of many"))
    tree = element("section", many(100, "place", row))
    app = component(either(read("there"), tree), do=[cell("there", 1)])
    return application({"App": app}, turns(max(1, size // 2)))


def clear(size):
    """So many rows in one component, which is taken away and brought back, twice."""
    app = component(either(read("there"), use("Table")), do=[cell("there", 1)])
    table = component(element("table", many(size, "place", use("Row", get("place")))))
    row = component(element("tr", text("row ", get("place"))), params=["place"])
    return application({"App": app, "Table": table, "Row": row}, turns(4))


def chain(size):
    """So many components under one another, taken away and brought back ten times."""
    app = component(either(read("there"), use("Level", size)), do=[cell("there", 1)])
    lower = use("Level", plus(get("left"), -1))
    end = element("b", "end")
    level = component(either(less(get("left"), 2), end, lower), params=["left"])
    return application({"App": app, "Level": level}, turns(20))


def page(size):
    """A component with so many paragraphs, each tenth of which reads a cell, and 200 writes."""
    def paragraph(place):
        begun = f"Paragraph {place} begins with words that stay, as most words of a page do, "
        edition = text("the ", get("first") if place % 10 else read("count"), "th of its edition")
        return element("p", begun, element("em", "some of them set apart"), " and ", edition, ".")

    known = [cell("count"), {"let": "first", "be": 1}]
    app = component(in_sections([paragraph(place) for place in range(size)]), do=known)
    return application({"App": app}, counts(200))


def form(size):
    """So many fields with two buttons and a sum below them; in each field a button is clicked."""
    def button_by(shown, by):
        return button(shown, "Add", get("value"), get("sum"), by)

    fields = many(size, "place", use("Field", get("place"), get("sum")))
    app = component(element("form", fields), use("Total", get("sum")), do=[cell("sum")])
    shown = element(
        "p",
        button_by("+", 1),
        element("label", "field ", text(get("place"))),
        element("b", text(read("value"))),
        button_by("-", -1),
    )
    field = component(shown, params=["place", "sum"], do=[cell("value", get("place"))])
    total = component(element("output", text("total ", read("sum"))), params=["sum"])
    steps = [write(it, plus(read(it), get("by"))) for it in ("value", "sum")]
    add = {"params": ["value", "sum", "by"], "do": steps}
    # (the form is the first node, and each field has ten, of which the button is the second)
    clicks = [{"event": "click", "element": 3 + 10 * (7 * k % size)} for k in range(size)]
    components = {"App": app, "Field": field, "Total": total}
    return application(components, clicks, actions={"Add": add})


def table(size):
    """So many rows of five cells, and as many writes, each of which selects another row."""
    is_on = {"eq": [read("selected"), get("place")]}
    items = many(size, "place", use("Row", get("place"), is_on))
    app = component(element("table", items), do=[cell("selected")])
    marked = text({"if": [get("on"), "selected", "-"]})
    value = text("value ", {"mul": [get("place"), 37]})
    parts = [text(get("place"))], ["name ", text(get("place"))], [value], ["edit"], [marked]
    shown = element("tr", *(element("td", *it) for it in parts))
    row = component(shown, params=["place", "on"])
    writes = [write(1, 7 * k % size) for k in range(1, size + 1)]
    return application({"App": app, "Row": row}, writes)


def shift(size):
    """So many items whose props all change at each of 100 writes."""
    items = many(size, "place", use("Item", plus(read("first"), get("place"))))
    app = component(element("ul", items), do=[cell("first")])
    item = component(element("li", text("item ", get("number"))), params=["number"])
    return application({"App": app, "Item": item}, counts(100))


def open_rows(size):
    """So many rows, each with a child that one write takes away and another brings back."""
    app = component(element("ul", many(size, "place", use("Row", get("place")))))
    more = either(read("there"), use("More", get("place")))
    shown = element("li", text("row ", get("place")), more)
    row = component(shown, params=["place"], do=[cell("there", 1)])
    child = component(element("p", text("more of ", get("place"))), params=["place"])
    writes = [write(7 * k % size + 1, k // size) for k in range(2 * size)]
    return application({"App": app, "Row": row, "More": child}, writes)


def routes(size):
    """Five pages of one path, above so many rows, and 500 changes of the path."""
    eight = many(8, "place", use("Part", get("place")))
    pages = {
        f"Page{it}": component(element("main", element("h1", f"page {it}"), eight))
        for it in range(5)
    }
    shown = use("Page4")
    for it in reversed(range(4)):
        shown = either({"eq": [read("path"), it]}, use(f"Page{it}"), shown)
    given = [cell("path"), {"provide": "path", "be": get("path")}]
    parts = element("b", text("part ", read("number"))), element("i", text("of ", read("path")))
    known = [context("path", "path"), cell("number", get("place"))]
    rows_below = element("ul", many(size, "place", use("Row", get("place"))))
    components = {
        "App": component(use("Router"), rows_below),
        "Router": component(shown, do=given),
        "Row": component(element("li", text("row ", get("place"))), params=["place"]),
        "Part": component(element("p", *parts), params=["place"], do=known),
    }
    return application({**components, **pages}, [write(1, (k + 1) % 5) for k in range(500)])


def hooks(size):
    """A component with so many cells and texts, and a write to every cell."""
    names = [f"value{place}" for place in range(size)]
    shown = in_sections([element("p", text(read(it))) for it in names])
    app = component(shown, do=[cell(it, place) for place, it in enumerate(names)])
    return application({"App": app}, [write(7 * k % size + 1, -1 - k) for k in range(size)])


def news(size):
    """A list of so many items, 50 times replaced by items of another component."""
    old, new = (use(it, get("place")) for it in ("Old", "New"))
    items = many(size, "place", either(read("new"), new, old))
    app = component(element("ul", items), do=[cell("new")])

    def item(tag):
        return component(element(tag, text(f"{tag} ", get("place"))), params=["place"])

    inputs = [write(1, (k + 1) % 2) for k in range(50)]
    return application({"App": app, "Old": item("dd"), "New": item("li")}, inputs)


def ten(size):
    """A page of so many nodes, a multiple of five, and 200 clicks on its last element."""
    items = many(size // 5 - 1, "place", use("Row", get("place")))
    app = component(element("table", items), use("Count"))
    shown = element("tr", element("td", text(get("place"))), element("td", "name"))
    row = component(shown, params=["place"])
    clicked = button(text(read("count")), "Add", get("count"))
    count = component(element("p", "clicked ", clicked), do=[cell("count")])
    add = {"params": ["count"], "do": [write("count", plus(read("count"), 1))]}
    clicks = [{"event": "click", "element": size - 1}] * 200
    return application({"App": app, "Row": row, "Count": count}, clicks, actions={"Add": add})


def marks(size):
    """So many items that read a cell, each with a child that reads it, and as many writes."""
    items = many(size, "place", use("Item", get("value")))
    app = component(element("ul", items), do=[cell("value")])
    shown = element("li", text(read("value")), use("Child", get("value")))
    item = component(shown, params=["value"])
    child = component(element("b", text(read("value"))), params=["value"])
    return application({"App": app, "Item": item, "Child": child}, counts(size))


def nest(size):
    """So many components under one another, all of which read a context's cell, and 200 writes."""
    given = [cell("value"), {"provide": "value", "be": get("value")}]
    app = component(use("Level", size), do=given)
    lower = use("Level", plus(get("left"), -1))
    below = either(less(get("left"), 2), element("b", "end"), lower)
    shown = element("div", text(read("value"), " at ", get("left")), below)
    level = component(shown, params=["left"], do=[context("value", "value")])
    return application({"App": app, "Level": level}, counts(200))


def memos(size):
    """So many rows with a memo of one cell, at most one of which changes at each of 200 writes."""
    items = many(size, "place", use("Row", get("place"), get("value")))
    app = component(element("ul", items), do=[cell("value")])
    shown = element("li", text(read("is-past")))
    is_past = memo("is-past", less(get("place"), read("value")))
    row = component(shown, params=["place", "value"], do=[is_past])
    return application({"App": app, "Row": row}, counts(200))


def derived(size):
    """So many rows with a cell and a memo of it, and a write to each, in an order that jumps."""
    app = component(element("ul", many(size, "place", use("Row", get("place")))))
    known = [cell("value", get("place")), memo("twice", {"mul": [read("value"), 2]})]
    row = component(element("li", text(read("twice"))), params=["place"], do=known)
    # (a memo is a cell, too: that of a row comes behind the row's own)
    writes = [write(2 * (7 * k % size) + 1, k) for k in range(size)]
    return application({"App": app, "Row": row}, writes)


LOADS = {
    "rows": rows,
    "list": growing_list,
    "reader": deep_reader,
    "readers": many_readers,
    "boundaries": boundaries,
    "subtree": subtree,
    "clear": clear,
    "page": page,
    "form": form,
    "open": open_rows,
    "routes": routes,
    "hooks": hooks,
    "table": table,
    "shift": shift,
    "news": news,
    "chain": chain,
    "ten": ten,
    "marks": marks,
    "nest": nest,
    "memos": memos,
    "derived": derived,
}
# The sizes of those that have their own.
SIZES = {
    "table": (100, 400),
    "news": (100, 400),
    "chain": (60, 120),
    "ten": (2500, 10_000),
    "marks": (100, 400),
    "nest": (30, 100),
}
# Of these the size is a depth or a count of inputs: what a run takes doesn't tell how it grows.
NO_GROWTH = ("reader", "subtree")


def growth(load, first, last):
    """The exponent by which a measure grew from one size to another, each with what it came to.

    None where that tells nothing."""
    (low, before), (high, after) = first, last
    tells = load not in NO_GROWTH and low != high and before and after
    if not tells or min(before, after) <= 0:
        return None
    return math.log(after / before) / math.log(high / low)
