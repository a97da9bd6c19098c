// The loads of tools/bench in Preact 8, by components with states: those of the sources, each under
// its name. It has no boundary that suspends: a page shows what is waiting until it is there.
"use strict";
const { h, render, options, Component } = require("preact");
const page = require("./page.js");

// A state that is set is rendered at once.
options.debounceRendering = (rerender) => rerender();

let cells = [];
const many = (count, item) => Array.from({ length: count }, (_, place) => item(place));

function shows(root, app, more) {
  render(app, root);
  const write = (cell, be) => cells[cell].setState({ value: be });
  return { write, wake: (task) => write(task, 1), settled: () => {}, ...more };
}

// What stands in an element more, where a component may show one element alone.
const inside = (root) => ({ top: () => root.firstChild });

// A component with a cell: its state's value.
class Cell extends Component {
  constructor(props, context) {
    super(props, context);
    this.state.value = this.first(props);
    cells.push(this);
  }
}

class Row extends Cell {
  first({ place }) { return place; }
  render() { return h("li", null, this.state.value); }
}
exports.rows = (size, root) =>
  shows(root, h("ul", null, many(size, (place) => h(Row, { key: place, place }))));

class Item extends Component {
  shouldComponentUpdate({ place }) { return place !== this.props.place; }
  render() { return h("li", null, `item ${this.props.place}`); }
}
class Growing extends Cell {
  first() { return 0; }
  render() {
    const count = this.state.value;
    const add = (by) => this.setState({ value: count + by });
    const button = (by) => h("button", { onClick: () => add(by) }, `${by}`);
    const items = many(count, (place) => h(Item, { key: place, place }));
    return h("div", null, button(1), button(-1), h("ol", null, items));
  }
}
exports.list = (_, root) => {
  const button = page.buttonOfList(() => root.firstChild);
  return { ...shows(root, h(Growing), inside(root)), button };
};

// What is above gives a store by the context, and a reader below takes what it hears from it.
class Provided extends Cell {
  first() {
    this.readers = new Set();
    return 0;
  }
  getChildContext() { return { store: this }; }
  shouldComponentUpdate(_, { value }) {
    this.readers.forEach((reader) => reader.setState({ value }));
    return false;
  }
  render({ kids }) { return kids; }
}
class Heard extends Component {
  constructor(props, context) {
    super(props, context);
    this.state.value = 0;
  }
  componentDidMount() { this.context.store.readers.add(this); }
  componentWillUnmount() { this.context.store.readers.delete(this); }
}
class Deep extends Heard {
  render() { return h("p", null, this.state.value); }
}
const Level = ({ left }) => (left < 2 ? h(Deep) : h(Level, { left: left - 1 }));
exports.reader = (size, root) =>
  shows(root, h(Provided, { kids: h(Level, { left: Math.max(2, Math.floor(size / 16)) }) }));

const Reader = ({ value }) => h("li", null, value);
class Readers extends Cell {
  first() { return 0; }
  render({ size }, { value }) {
    return h("ul", null, many(size, (place) => h(Reader, { key: place, value })));
  }
}
exports.readers = (size, root) => shows(root, h(Readers, { size }));

const Waiting = () => "waiting";
class Page extends Cell {
  first() { return 0; }
  render() { return this.state.value ? h("p", null, `page ${this.props.place}`) : h(Waiting); }
}
exports.boundaries = (size, root) =>
  shows(root, h("div", null, many(size, (place) => h(Page, { key: place, place }))), inside(root));

class Subtree extends Cell {
  first() { return 1; }
  render() {
    const row = (place) => h("p", { key: place }, h("b", null, place), h("i", null, "of many"));
    return this.state.value ? h("section", null, many(100, row)) : null;
  }
}
exports.subtree = (_, root) => shows(root, h(Subtree));

class Clear extends Cell {
  first() { return 1; }
  render({ size }) { return this.state.value ? h(Table, { size }) : null; }
}
const Table = ({ size }) =>
  h("table", null, many(size, (place) => h(TableRow, { key: place, place })));
const TableRow = ({ place }) => h("tr", null, `row ${place}`);
exports.clear = (size, root) => shows(root, h(Clear, { size }));

const Link = ({ left }) => (left < 2 ? h("b", null, "end") : h(Link, { left: left - 1 }));
class Chain extends Cell {
  first() { return 1; }
  render({ size }) { return this.state.value ? h(Link, { left: size }) : null; }
}
exports.chain = (size, root) => shows(root, h(Chain, { size }));

const inSections = (nodes) =>
  h("main", null, page.hundreds(nodes).map((kids, key) => h("section", { key }, kids)));
class Paragraphs extends Cell {
  first() { return 0; }
  render({ size }, { value }) {
    const paragraph = (place) =>
      h("p", { key: place }, page.begun(place), h("em", null, page.apart), " and ",
        `the ${place % 10 ? 1 : value}th of its edition`, ".");
    return inSections(many(size, paragraph));
  }
}
exports.page = (size, root) => shows(root, h(Paragraphs, { size }));

// The sum is given to all fields, so that none is rendered for it.
class Field extends Cell {
  first({ place }) { return place; }
  render({ place, sum }, { value }) {
    const add = (it, by) => it.setState({ value: it.state.value + by });
    const button = (text, by) => {
      const both = () => [this, sum.shown].forEach((it) => add(it, by));
      return h("button", { onClick: both }, text);
    };
    const label = h("label", null, "field ", place);
    return h("p", null, button("+", 1), label, h("b", null, value), button("-", -1));
  }
}
class Total extends Cell {
  first({ sum }) {
    sum.shown = this;
    return 0;
  }
  render(_, { value }) { return h("output", null, `total ${value}`); }
}
exports.form = (size, root) => {
  const sum = {};
  const fields = many(size, (place) => h(Field, { key: place, place, sum }));
  const app = h("div", null, h("form", null, fields), h(Total, { sum }));
  const button = page.buttonOfField(() => root.firstChild);
  return { ...shows(root, app, inside(root)), button };
};

class Selected extends Component {
  shouldComponentUpdate({ isOn }) { return isOn !== this.props.isOn; }
  render({ place, isOn }) {
    const cells = [place, ["name ", place], `value ${37 * place}`, "edit", isOn ? "selected" : "-"];
    return h("tr", null, cells.map((kids, key) => h("td", { key }, kids)));
  }
}
class Selecting extends Cell {
  first() { return 0; }
  render({ size }, { value }) {
    const row = (place) => h(Selected, { key: place, place, isOn: value === place });
    return h("table", null, many(size, row));
  }
}
exports.table = (size, root) => shows(root, h(Selecting, { size }));

class Shifting extends Cell {
  first() { return 0; }
  render({ size }, { value }) {
    return h("ul", null, many(size, (place) => h(Item, { key: place, place: value + place })));
  }
}
exports.shift = (size, root) => shows(root, h(Shifting, { size }));

const More = ({ place }) => h("p", null, `more of ${place}`);
class Opening extends Cell {
  first() { return 1; }
  render({ place }, { value }) {
    return h("li", null, `row ${place}`, value ? h(More, { place }) : null);
  }
}
exports.open = (size, root) =>
  shows(root, h("ul", null, many(size, (place) => h(Opening, { key: place, place }))));

class Part extends Component {
  constructor(props, context) {
    super(props, context);
    this.state.number = props.place;
  }
  render() {
    const { number } = this.state;
    return h("p", null, h("b", null, `part ${number}`), h("i", null, `of ${this.context.path}`));
  }
}
const pages = many(5, (number) => () =>
  h("main", null, h("h1", null, `page ${number}`),
    many(8, (place) => h(Part, { key: place, place }))));
class Router extends Cell {
  first() { return 0; }
  getChildContext() { return { path: this.state.value }; }
  render() { return h(pages[this.state.value]); }
}
const PlainRow = ({ place }) => h("li", null, `row ${place}`);
exports.routes = (size, root) => {
  const below = h("ul", null, many(size, (place) => h(PlainRow, { key: place, place })));
  return shows(root, h("div", null, h(Router), below), inside(root));
};

class Hooks extends Component {
  constructor(props, context) {
    super(props, context);
    many(props.size, (place) => { this.state[place] = place; });
  }
  render({ size }, state) {
    return inSections(many(size, (place) => h("p", { key: place }, state[place])));
  }
}
exports.hooks = (size, root) => {
  let shown = null;
  const made = shows(root, h(Hooks, { size, ref: (it) => { shown = it; } }));
  return { ...made, write: (cell, be) => shown.setState({ [cell]: be }) };
};

const [Old, New] = ["dd", "li"].map((tag) => ({ place }) => h(tag, null, `${tag} ${place}`));
class News extends Cell {
  first() { return 0; }
  render({ size }, { value }) {
    return h("ul", null, many(size, (place) => h(value ? New : Old, { key: place, place })));
  }
}
exports.news = (size, root) => shows(root, h(News, { size }));

const SmallRow = ({ place }) => h("tr", null, h("td", null, place), h("td", null, "name"));
class Count extends Cell {
  first() { return 0; }
  render(_, { value }) {
    const add = () => this.setState({ value: value + 1 });
    return h("p", null, "clicked ", h("button", { onClick: add }, value));
  }
}
exports.ten = (size, root) => {
  const table = many(size / 5 - 1, (place) => h(SmallRow, { key: place, place }));
  const made = shows(root, h("div", null, h("table", null, table), h(Count)), inside(root));
  return { ...made, button: () => root.firstChild.lastChild.lastChild };
};

const Child = ({ value }) => h("b", null, value);
const Marked = ({ value }) => h("li", null, value, h(Child, { value }));
class Marks extends Cell {
  first() { return 0; }
  render({ size }, { value }) {
    return h("ul", null, many(size, (place) => h(Marked, { key: place, value })));
  }
}
exports.marks = (size, root) => shows(root, h(Marks, { size }));

class Nested extends Heard {
  shouldComponentUpdate(_, { value }) { return value !== this.state.value; }
  render({ left }, { value }) {
    const below = left < 2 ? h("b", null, "end") : h(Nested, { left: left - 1 });
    return h("div", null, `${value} at ${left}`, below);
  }
}
exports.nest = (size, root) =>
  shows(root, h(Provided, { kids: h(Nested, { left: size }) }));

class Past extends Component {
  shouldComponentUpdate({ place, value }) { return place < value !== place < this.props.value; }
  render({ place, value }) { return h("li", null, Number(place < value)); }
}
class Pasts extends Cell {
  first() { return 0; }
  render({ size }, { value }) {
    return h("ul", null, many(size, (place) => h(Past, { key: place, place, value })));
  }
}
exports.memos = (size, root) => shows(root, h(Pasts, { size }));

class Twice extends Cell {
  first({ place }) { return place; }
  render() { return h("li", null, 2 * this.state.value); }
}
exports.derived = (size, root) => {
  const made = shows(root, h("ul", null, many(size, (place) => h(Twice, { key: place, place }))));
  return { ...made, write: (cell, be) => made.write(cell / 2, be) };
};

exports.least = (_, root) => shows(root, "least");
