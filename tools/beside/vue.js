// The loads of tools/bench in Vue 2, by components with data: those of the sources, each under its
// name. It has no boundary that suspends: a page shows what is waiting until it is there.
"use strict";
const Vue = require("vue");
const page = require("./page.js");
Vue.config.productionTip = false;

let cells = [];
const many = (count, item) => Array.from({ length: count }, (_, place) => item(place));

function shows(root, app, more) {
  const host = root.appendChild(document.createElement("div"));
  new Vue({ render: (h) => h(app) }).$mount(host);
  const write = (cell, be) => { cells[cell].value = be; };
  return { write, wake: (task) => write(task, 1), settled: () => Vue.nextTick(), ...more };
}

// What stands in an element more, where a component may show one element alone.
const inside = (root) => ({ top: () => root.firstChild });

// A component with a cell: its data's value.
const cell = (first, more) => ({
  data() { return { value: first(this) }; },
  created() { cells.push(this); },
  ...more,
});

const Row = cell((it) => it.place, {
  props: ["place"],
  render(h) { return h("li", this.value); },
});
exports.rows = (size, root) => shows(root, {
  render: (h) => h("ul", many(size, (place) => h(Row, { key: place, props: { place } }))),
});

const Item = { props: ["place"], render(h) { return h("li", `item ${this.place}`); } };
const Growing = cell(() => 0, {
  render(h) {
    const button = (by) => h("button", { on: { click: () => { this.value += by; } } }, `${by}`);
    const items = many(this.value, (place) => h(Item, { key: place, props: { place } }));
    return h("div", [button(1), button(-1), h("ol", items)]);
  },
});
exports.list = (_, root) => {
  const button = page.buttonOfList(() => root.firstChild);
  return { ...shows(root, Growing, inside(root)), button };
};

const Deep = { inject: ["above"], render(h) { return h("p", this.above.value); } };
const Level = {
  props: ["left"],
  render(h) { return this.left < 2 ? h(Deep) : h(Level, { props: { left: this.left - 1 } }); },
};
const provided = (render) => cell(() => 0, {
  provide() { return { above: this }; },
  render,
});
exports.reader = (size, root) => {
  const left = Math.max(2, Math.floor(size / 16));
  return shows(root, provided((h) => h(Level, { props: { left } })));
};

const Reader = { inject: ["above"], render(h) { return h("li", this.above.value); } };
exports.readers = (size, root) =>
  shows(root, provided((h) => h("ul", many(size, (place) => h(Reader, { key: place })))));

const Waiting = { render() { return this._v("waiting"); } };
const Page = cell(() => 0, {
  props: ["place"],
  render(h) { return this.value ? h("p", `page ${this.place}`) : h(Waiting); },
});
exports.boundaries = (size, root) => shows(root, {
  render: (h) => h("div", many(size, (place) => h(Page, { key: place, props: { place } }))),
}, inside(root));

const Subtree = cell(() => 1, {
  render(h) {
    const row = (place) => h("p", { key: place }, [h("b", `${place}`), h("i", "of many")]);
    return this.value ? h("section", many(100, row)) : h();
  },
});
exports.subtree = (_, root) => shows(root, Subtree);

const TableRow = { props: ["place"], render(h) { return h("tr", `row ${this.place}`); } };
const Table = {
  props: ["size"],
  render(h) {
    const row = (place) => h(TableRow, { key: place, props: { place } });
    return h("table", many(this.size, row));
  },
};
exports.clear = (size, root) => shows(root, cell(() => 1, {
  render(h) { return this.value ? h(Table, { props: { size } }) : h(); },
}));

const Link = {
  props: ["left"],
  render(h) {
    return this.left < 2 ? h("b", "end") : h(Link, { props: { left: this.left - 1 } });
  },
};
exports.chain = (size, root) => shows(root, cell(() => 1, {
  render(h) { return this.value ? h(Link, { props: { left: size } }) : h(); },
}));

const inSections = (h, nodes) =>
  h("main", page.hundreds(nodes).map((kids, key) => h("section", { key }, kids)));
exports.page = (size, root) => shows(root, cell(() => 0, {
  render(h) {
    const edition = (place) => `the ${place % 10 ? 1 : this.value}th of its edition`;
    const paragraph = (place) => h("p", { key: place },
      [page.begun(place), h("em", page.apart), " and ", edition(place), "."]);
    return inSections(h, many(size, paragraph));
  },
}));

// The sum is given to all fields, so that none is rendered for it.
const Field = cell((it) => it.place, {
  props: ["place", "sum"],
  render(h) {
    const add = (by) => [this, this.sum.shown].forEach((it) => { it.value += by; });
    const button = (text, by) => h("button", { on: { click: () => add(by) } }, text);
    const label = h("label", ["field ", `${this.place}`]);
    return h("p", [button("+", 1), label, h("b", `${this.value}`), button("-", -1)]);
  },
});
const Total = cell(() => 0, {
  props: ["sum"],
  mounted() { this.sum.shown = this; },
  render(h) { return h("output", `total ${this.value}`); },
});
exports.form = (size, root) => {
  const sum = Object.preventExtensions({ shown: null });
  const field = (h) => (place) => h(Field, { key: place, props: { place, sum } });
  const app = {
    render: (h) => h("div", [h("form", many(size, field(h))), h(Total, { props: { sum } })]),
  };
  const button = page.buttonOfField(() => root.firstChild);
  return { ...shows(root, app, inside(root)), button };
};

const Selected = {
  props: ["place", "isOn"],
  render(h) {
    const { place, isOn } = this;
    const name = ["name ", `${place}`];
    const cells = [`${place}`, name, `value ${37 * place}`, "edit", isOn ? "selected" : "-"];
    return h("tr", cells.map((kids, key) => h("td", { key }, kids)));
  },
};
exports.table = (size, root) => shows(root, cell(() => 0, {
  render(h) {
    const isOn = (place) => this.value === place;
    const row = (place) => h(Selected, { key: place, props: { place, isOn: isOn(place) } });
    return h("table", many(size, row));
  },
}));

exports.shift = (size, root) => shows(root, cell(() => 0, {
  render(h) {
    const item = (place) => h(Item, { key: place, props: { place: this.value + place } });
    return h("ul", many(size, item));
  },
}));

const More = { props: ["place"], render(h) { return h("p", `more of ${this.place}`); } };
const Opening = cell(() => 1, {
  props: ["place"],
  render(h) {
    const more = this.value ? h(More, { props: { place: this.place } }) : null;
    return h("li", [`row ${this.place}`, more]);
  },
});
exports.open = (size, root) => shows(root, {
  render: (h) => h("ul", many(size, (place) => h(Opening, { key: place, props: { place } }))),
});

const Part = cell((it) => it.place, {
  props: ["place"],
  inject: ["above"],
  render(h) { return h("p", [h("b", `part ${this.value}`), h("i", `of ${this.above.value}`)]); },
});
const pages = many(5, (number) => ({
  render(h) {
    const part = (place) => h(Part, { key: place, props: { place } });
    return h("main", [h("h1", `page ${number}`), ...many(8, part)]);
  },
}));
const PlainRow = { props: ["place"], render(h) { return h("li", `row ${this.place}`); } };
exports.routes = (size, root) => {
  const Router = provided(function render(h) { return h(pages[this.value]); });
  const row = (h) => (place) => h(PlainRow, { key: place, props: { place } });
  const app = { render: (h) => h("div", [h(Router), h("ul", many(size, row(h)))]) };
  return shows(root, app, inside(root));
};

exports.hooks = (size, root) => {
  let shown = null;
  const made = shows(root, {
    data: () => ({ values: many(size, (place) => place) }),
    created() { shown = this; },
    render(h) { return inSections(h, this.values.map((it, key) => h("p", { key }, `${it}`))); },
  });
  return { ...made, write: (place, be) => shown.$set(shown.values, place, be) };
};

const [Old, New] = ["dd", "li"].map((tag) =>
  ({ props: ["place"], render(h) { return h(tag, `${tag} ${this.place}`); } }));
exports.news = (size, root) => shows(root, cell(() => 0, {
  render(h) {
    const shown = this.value ? New : Old;
    return h("ul", many(size, (place) => h(shown, { key: place, props: { place } })));
  },
}));

const SmallRow = {
  props: ["place"],
  render(h) { return h("tr", [h("td", `${this.place}`), h("td", "name")]); },
};
const Count = cell(() => 0, {
  render(h) {
    const on = { click: () => { this.value += 1; } };
    return h("p", ["clicked ", h("button", { on }, `${this.value}`)]);
  },
});
exports.ten = (size, root) => {
  const row = (h) => (place) => h(SmallRow, { key: place, props: { place } });
  const table = (h) => h("table", many(size / 5 - 1, row(h)));
  const made = shows(root, { render: (h) => h("div", [table(h), h(Count)]) }, inside(root));
  return { ...made, button: () => root.firstChild.lastChild.lastChild };
};

const Child = { inject: ["above"], render(h) { return h("b", `${this.above.value}`); } };
const Marked = {
  inject: ["above"],
  render(h) { return h("li", [`${this.above.value}`, h(Child)]); },
};
exports.marks = (size, root) =>
  shows(root, provided((h) => h("ul", many(size, (place) => h(Marked, { key: place })))));

const Nested = {
  props: ["left"],
  inject: ["above"],
  render(h) {
    const { left, above } = this;
    const below = left < 2 ? h("b", "end") : h(Nested, { props: { left: left - 1 } });
    return h("div", [`${above.value} at ${left}`, below]);
  },
};
exports.nest = (size, root) =>
  shows(root, provided((h) => h(Nested, { props: { left: size } })));

const Past = {
  props: ["place"],
  inject: ["above"],
  computed: { isPast() { return Number(this.place < this.above.value); } },
  render(h) { return h("li", `${this.isPast}`); },
};
exports.memos = (size, root) => shows(root, provided((h) =>
  h("ul", many(size, (place) => h(Past, { key: place, props: { place } })))));

const Twice = cell((it) => it.place, {
  props: ["place"],
  computed: { twice() { return 2 * this.value; } },
  render(h) { return h("li", `${this.twice}`); },
});
exports.derived = (size, root) => {
  const row = (h) => (place) => h(Twice, { key: place, props: { place } });
  const made = shows(root, { render: (h) => h("ul", many(size, row(h))) });
  return { ...made, write: (place, be) => made.write(place / 2, be) };
};

exports.least = (_, root) => shows(root, { render() { return this._v("least"); } });
