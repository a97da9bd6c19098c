// The loads of tools/bench in React, by hooks: the components of the sources, each under its name.
"use strict";
const React = require("react");
const { createRoot } = require("react-dom/client");
const { flushSync } = require("react-dom");
const page = require("./page.js");
const h = React.createElement;

// Shows the root, and answers how a cell is written and what is to be waited for after an input.
function shows(root, app, more) {
  flushSync(() => createRoot(root).render(app));
  const write = (cell, be) => flushSync(() => cells[cell](be));
  return { write, settled: () => flushSync(() => {}), ...more };
}

let cells = [];
const many = (count, item) => Array.from({ length: count }, (_, place) => item(place));

// A state whose setter is found by the cell's number, which is that of its component's first run.
function useCell(init) {
  const [value, set] = React.useState(init);
  const known = React.useRef(false);
  if (!known.current) {
    known.current = true;
    cells.push(set);
  }
  return value;
}

const Row = ({ place }) => h("li", null, useCell(place));
exports.rows = (size, root) =>
  shows(root, h("ul", null, many(size, (place) => h(Row, { key: place, place }))));

const Item = React.memo(({ place }) => h("li", null, `item ${place}`));
function Growing() {
  const [count, set] = React.useState(0);
  const button = (by) => h("button", { onClick: () => set(count + by) }, `${by}`);
  const items = many(count, (place) => h(Item, { key: place, place }));
  return h(React.Fragment, null, button(1), button(-1), h("ol", null, items));
}
exports.list = (_, root) => shows(root, h(Growing), { button: page.buttonOfList(() => root) });

const Value = React.createContext(0);
const Provided = ({ kids }) => h(Value.Provider, { value: useCell(0) }, kids);
const Deep = () => h("p", null, React.useContext(Value));
const Level = ({ left }) => (left < 2 ? h(Deep) : h(Level, { left: left - 1 }));
exports.reader = (size, root) =>
  shows(root, h(Provided, { kids: h(Level, { left: Math.max(2, Math.floor(size / 16)) }) }));

const Reader = () => h("li", null, React.useContext(Value));
exports.readers = (size, root) => {
  const kids = h("ul", null, many(size, (place) => h(Reader, { key: place })));
  return shows(root, h(Provided, { kids }));
};

// What a page waits for stands outside of it: one that suspends in its first run keeps no state.
const Waiting = () => "waiting";
function Page({ place, load }) {
  if (!load.there) throw load.promise;
  React.useLayoutEffect(() => { load.isShown = true; });
  return h("p", null, `page ${place}`);
}
exports.boundaries = (size, root) => {
  const loads = many(size, () => {
    const load = { there: false };
    load.promise = new Promise((resolve) => (load.resolve = resolve));
    return load;
  });
  const app = many(size, (place) => {
    const page = h(Page, { place, load: loads[place] });
    return h(React.Suspense, { key: place, fallback: h(Waiting) }, page);
  });
  let woken = null;
  const wake = (task) => {
    woken = loads[task];
    woken.there = true;
    woken.resolve();
  };
  // (React comes back to what a promise held in a turn of its own)
  const settled = async () => {
    while (!woken.isShown) await new Promise((resolve) => setImmediate(resolve));
  };
  return { ...shows(root, app), wake, settled };
};

function Subtree() {
  const row = (place) => h("p", { key: place }, h("b", null, place), h("i", null, "of many"));
  return useCell(1) ? h("section", null, many(100, row)) : null;
}
exports.subtree = (_, root) => shows(root, h(Subtree));

function Clear({ size }) {
  return useCell(1) ? h(Table, { size }) : null;
}
const Table = ({ size }) =>
  h("table", null, many(size, (place) => h(TableRow, { key: place, place })));
const TableRow = React.memo(({ place }) => h("tr", null, `row ${place}`));
exports.clear = (size, root) => shows(root, h(Clear, { size }));

const Link = ({ left }) => (left < 2 ? h("b", null, "end") : h(Link, { left: left - 1 }));
const Chain = ({ size }) => (useCell(1) ? h(Link, { left: size }) : null);
exports.chain = (size, root) => shows(root, h(Chain, { size }));

function Paragraphs({ size }) {
  const count = useCell(0);
  const paragraph = (place) =>
    h("p", { key: place }, page.begun(place), h("em", null, page.apart), " and ",
      `the ${place % 10 ? 1 : count}th of its edition`, ".");
  return inSections(many(size, paragraph));
}
const inSections = (nodes) =>
  h("main", null, page.hundreds(nodes).map((kids, key) => h("section", { key }, kids)));
exports.page = (size, root) => shows(root, h(Paragraphs, { size }));

// The sum's setter is given to all fields, so that none is rendered for it.
const Field = React.memo(({ place, sum }) => {
  const [value, set] = React.useState(place);
  const button = (text, by) => {
    const add = () => {
      set((it) => it + by);
      sum.set((it) => it + by);
    };
    return h("button", { onClick: add }, text);
  };
  const label = h("label", null, "field ", place);
  return h("p", null, button("+", 1), label, h("b", null, value), button("-", -1));
});
function Total({ sum }) {
  const [value, set] = React.useState(0);
  sum.set = set;
  return h("output", null, `total ${value}`);
}
exports.form = (size, root) => {
  const sum = {};
  const fields = many(size, (place) => h(Field, { key: place, place, sum }));
  const app = h(React.Fragment, null, h("form", null, fields), h(Total, { sum }));
  return { ...shows(root, app), button: page.buttonOfField(() => root) };
};

const Selected = React.memo(({ place, isOn }) => {
  const cells = [place, ["name ", place], `value ${37 * place}`, "edit", isOn ? "selected" : "-"];
  return h("tr", null, cells.map((kids, key) => h("td", { key }, kids)));
});
function Selecting({ size }) {
  const selected = useCell(0);
  const row = (place) => h(Selected, { key: place, place, isOn: selected === place });
  return h("table", null, many(size, row));
}
exports.table = (size, root) => shows(root, h(Selecting, { size }));

function Shifting({ size }) {
  const first = useCell(0);
  return h("ul", null, many(size, (place) => h(Item, { key: place, place: first + place })));
}
exports.shift = (size, root) => shows(root, h(Shifting, { size }));

const More = React.memo(({ place }) => h("p", null, `more of ${place}`));
const Opening = React.memo(({ place }) =>
  h("li", null, `row ${place}`, useCell(1) ? h(More, { place }) : null));
exports.open = (size, root) =>
  shows(root, h("ul", null, many(size, (place) => h(Opening, { key: place, place }))));

const Path = React.createContext(0);
function Part({ place }) {
  const [number] = React.useState(place);
  return h("p", null, h("b", null, `part ${number}`), h("i", null, `of ${React.useContext(Path)}`));
}
const pages = many(5, (number) => () =>
  h("main", null, h("h1", null, `page ${number}`),
    many(8, (place) => h(Part, { key: place, place }))));
function Router() {
  const path = useCell(0);
  return h(Path.Provider, { value: path }, h(pages[path]));
}
const PlainRow = React.memo(({ place }) => h("li", null, `row ${place}`));
exports.routes = (size, root) => {
  const below = h("ul", null, many(size, (place) => h(PlainRow, { key: place, place })));
  return shows(root, h(React.Fragment, null, h(Router), below));
};

function Hooks({ size }) {
  const values = many(size, (place) => useCell(place));
  return inSections(values.map((value, key) => h("p", { key }, value)));
}
exports.hooks = (size, root) => shows(root, h(Hooks, { size }));

const [Old, New] = ["dd", "li"].map((tag) => ({ place }) => h(tag, null, `${tag} ${place}`));
function News({ size }) {
  const shown = useCell(0) ? New : Old;
  return h("ul", null, many(size, (place) => h(shown, { key: place, place })));
}
exports.news = (size, root) => shows(root, h(News, { size }));

const SmallRow = React.memo(({ place }) =>
  h("tr", null, h("td", null, place), h("td", null, "name")));
function Count() {
  const [count, set] = React.useState(0);
  return h("p", null, "clicked ", h("button", { onClick: () => set(count + 1) }, count));
}
exports.ten = (size, root) => {
  const table = many(size / 5 - 1, (place) => h(SmallRow, { key: place, place }));
  const made = shows(root, h(React.Fragment, null, h("table", null, table), h(Count)));
  return { ...made, button: () => root.lastChild.lastChild };
};

const Child = () => h("b", null, React.useContext(Value));
const Marked = () => h("li", null, React.useContext(Value), h(Child));
exports.marks = (size, root) => {
  const kids = h("ul", null, many(size, (place) => h(Marked, { key: place })));
  return shows(root, h(Provided, { kids }));
};

function Nested({ left }) {
  const text = `${React.useContext(Value)} at ${left}`;
  return h("div", null, text, left < 2 ? h("b", null, "end") : h(Nested, { left: left - 1 }));
}
exports.nest = (size, root) => shows(root, h(Provided, { kids: h(Nested, { left: size }) }));

function Past({ place }) {
  const value = React.useContext(Value);
  return h("li", null, React.useMemo(() => Number(place < value), [place, value]));
}
exports.memos = (size, root) => {
  const kids = h("ul", null, many(size, (place) => h(Past, { key: place, place })));
  return shows(root, h(Provided, { kids }));
};

function Twice({ place }) {
  const value = useCell(place);
  return h("li", null, React.useMemo(() => 2 * value, [value]));
}
exports.derived = (size, root) => {
  const made = shows(root, h("ul", null, many(size, (place) => h(Twice, { key: place, place }))));
  return { ...made, write: (cell, be) => made.write(cell / 2, be) };
};

exports.least = (_, root) => shows(root, "least");
