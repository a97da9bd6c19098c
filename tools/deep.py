"""The deepest sources that are run, each with what the language says of it.

A shape says what stands in what. A source has it as deep as JSON may nest, in as many components
under one another as the limit of heights lets stand. Its inputs have all of it run again, take it
away and make it anew."""
import dataclasses
from collections.abc import Iterator

# So many levels of a view stand in the 127 in which arrays and objects may nest.
LEVELS = 61
# What a level is of each shape, with the nodes that stand in it.
SHAPES = {
    "elements": lambda level, inner: {"el": "b", "kids": inner},
    "lists": lambda level, inner: {"list": 1, "as": "i", "item": inner},
    "both": lambda level, inner: SHAPES[("elements", "lists")[level % 2]](level, inner),
    "errors": lambda level, inner: {"boundary": "error", "kids": inner},
    "suspense": lambda level, inner: {"boundary": "suspense", "kids": inner},
    "fragments": lambda level, inner: {"fragment": inner},
}
# Of these each level is a scope of its own.
SCOPED = "errors", "suspense", "fragments"
INPUTS = [{"drain": [{"all": 0}]}, {"write": 1, "be": 0}, {"write": 1, "be": 1}]


@dataclasses.dataclass(frozen=True)
class Report:
    """How many units, bodies and edits a report has, and its log."""

    units: int
    bodies: int
    edits: int
    log: list[str]

    def line(self, number: int) -> str:
        counts = f"units {self.units} bodies {self.bodies} edits {self.edits}"
        return f"report {number} {counts} log {' '.join(self.log)}"


@dataclasses.dataclass(frozen=True)
class Deep:
    """A shape within a limit of heights."""

    shape: str
    limit: int

    @property
    def depths(self) -> list[int]:
        """How many levels stand in each component, the root first, which needs two for its test."""
        below = LEVELS + 1 if self.shape in SCOPED else 1
        count = (self.limit - (0 if self.shape in SCOPED else 2)) // below
        return [LEVELS - 2] + [LEVELS] * (count - 1)

    @property
    def levels(self) -> int:
        return sum(self.depths)

    @property
    def elements(self) -> int:
        """How many elements stand in one another."""
        in_one = {"elements": lambda it: it, "both": lambda it: (it + 1) // 2}
        return sum(map(in_one.get(self.shape, lambda it: 0), self.depths))

    @property
    def owners(self) -> list[int]:
        """The scopes of the components."""
        found = [3]
        for depth in self.depths[:-1]:
            found.append(found[-1] + 1 + (depth if self.shape in SCOPED else 0))
        return found

    @property
    def last(self) -> int:
        """The scope that is made last."""
        return self.owners[-1] + (self.depths[-1] if self.shape in SCOPED else 0)

    def source(self, **more) -> dict:
        made = SHAPES[self.shape]
        components = {}
        for place, depth in enumerate(self.depths):
            is_last = place + 1 == len(self.depths)
            nodes = ["end"] if is_last else [{"use": f"C{place + 1}"}]
            for level in reversed(range(depth)):
                nodes = [made(level, nodes)]
            components[f"C{place}"] = {"view": nodes}
        shown = {"pick": [{"read": "shown"}, components["C0"]["view"], []]}
        components["C0"] = {"do": [{"cell": "shown", "init": 1}], "view": [shown]}
        return {"components": components, "root": "C0", **more}

    def reports(self) -> list[Report]:
        """Those of the build and of the inputs."""
        last, count = self.last, self.last + 1
        build = ["build", *(f"made:{it}" for it in range(1, count))]
        away = ["rerun:3", *(f"removed:{it}" for it in range(last, 3, -1))]
        again = ["rerun:3", *(f"made:{it}" for it in range(count, 2 * last - 2))]
        run = list(self.run_again())
        units = sum(it.startswith("rerun:") for it in run)
        return [
            Report(0, count, 1, build),
            Report(units, count, 0, ["input:1", *run]),
            Report(1, 1, 1, ["input:2", *away]),
            Report(1, last - 2, 1, ["input:3", *again]),
        ]

    def run_again(self) -> Iterator[str]:
        """The log where all scopes are marked: error boundaries always run where what they stand
        in does, all else is kept."""
        yield from ("rerun:0", "kept:1", "rerun:1", "fed:2", "kept:3")
        for owner in self.owners if self.shape == "errors" else range(3, self.last + 1):
            yield f"rerun:{owner}"
            following = owner + 1
            while self.shape == "errors" and following not in (*self.owners, self.last + 1):
                yield f"fed:{following}"
                following += 1
            if following <= self.last:
                yield f"kept:{following}"

    def edits(self, nodes) -> list[tuple[str, int, str]]:
        """Each edit's kind, its number and its nodes, as `nodes` writes them."""
        hole = self.elements + 2
        again = self.nested(nodes, hole + 1)
        return [
            ("append", 0, self.nested(nodes, 1)),
            ("replace", 1, nodes.hole(hole)),
            ("replace", hole, again),
        ]

    def nested(self, nodes, first: int) -> str:
        """The elements in one another and the text in the last one, numbered from there on."""
        numbers = range(first, first + self.elements)
        begun = "".join(map(nodes.begun, numbers))
        text = nodes.text(first + self.elements)
        return begun + text + nodes.ended * self.elements


class Lines:
    """Nodes as a printed line has them."""

    ended = ")"

    @staticmethod
    def begun(number: int) -> str:
        return f"(b#{number} "

    @staticmethod
    def text(number: int) -> str:
        return f'"end"#{number}'

    @staticmethod
    def hole(number: int) -> str:
        return f"_#{number}"


class Objects:
    """Nodes as objects of JSON."""

    ended = "]}"

    @staticmethod
    def begun(number: int) -> str:
        return f'{{"el":"b","ns":null,"id":{number},"attrs":[],"on":[],"kids":['

    @staticmethod
    def text(number: int) -> str:
        return f'{{"text":"end","id":{number}}}'

    @staticmethod
    def hole(number: int) -> str:
        return f'{{"hole":true,"id":{number}}}'


class Pages:
    """Nodes of a page."""

    ended = "</b>"

    @staticmethod
    def begun(_number: int) -> str:
        return "<b>"

    @staticmethod
    def text(_number: int) -> str:
        return "<!--t-->end"
